//! `lupaniele check`.

use crate::args::Args;
use crate::input::{described, image};
use crate::outcome::{Done, Outcome, verdict};

pub fn run(args: &Args) -> Outcome {
    let path = args.path(0);
    let image = verdict(image(path))?;
    match image {
        Ok(image) => Done::well(format!(
            "{}: sound: {}\n",
            path.display(),
            described(&image)
        )),
        Err(broken) => Ok(broken),
    }
}
