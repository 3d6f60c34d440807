//! `lupaniele convert`.

use lupaniele::{Number, Version};

use crate::args::Args;
use crate::input;
use crate::make::saved;
use crate::outcome::{Failed, Outcome};

pub fn run(args: &Args) -> Outcome {
    let (path, new) = (args.path(0), args.written(1).map_err(Failed::unusable)?);
    let image = input::image(path)?;
    let refused = |told: String| Failed::refused(format!("{}: {told}", path.display()));
    if image.version() != Version::One {
        return Err(refused(format!(
            "it is an image of {} already (rule 15.10)",
            image.version()
        )));
    }
    let converted = image.convert().map_err(|number| match number {
        Number::NotMade => {
            let fault = forms::shape_fault(Version::Two, image.count(), image.room());
            let told = fault.map_or_else(|| number.meaning().to_string(), |(_, told)| told);
            refused(format!(
                "too large for four translations of each card: {told} (rule 15.10)"
            ))
        }
        number => refused(format!("{number}: {}", number.meaning())),
    })?;
    saved(new, converted)
}
