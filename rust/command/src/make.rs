//! `lupaniele make`.

use std::io::ErrorKind;
use std::path::Path;

use lupaniele::files::{FileError, ImageFile};
use lupaniele::{Image, Version};

use crate::args::Args;
use crate::input::{described, text, wrong};
use crate::outcome::{Done, Failed, Outcome};

pub fn run(args: &Args) -> Outcome {
    let path = args.written(0).map_err(Failed::unusable)?;
    let image = match args.file("--from") {
        Some(from) => {
            if ["--cards", "--room", "--version"]
                .iter()
                .any(|name| args.has(name))
            {
                return Err(Failed::unusable(
                    "--from has the cards, the room and the version in its text",
                ));
            }
            forms::read_image(&text(from, "the text of an image")?).map_err(wrong(from))?
        }
        None => fresh(args)?,
    };
    saved(path, image)
}

fn fresh(args: &Args) -> Result<Image, Failed> {
    let cards = args.needed("--cards", "an image has 1 to 128 cards (rule 2.2)");
    let cards = cards.map_err(Failed::unusable)?;
    let room = "a text has room for 16 to 1024 bytes, a multiple of 16 (rule 2.2)";
    let room = args.needed("--room", room).map_err(Failed::unusable)?;
    let version = match args.value("--version").as_deref() {
        None | Some("1") => Version::One,
        Some("2") => Version::Two,
        Some(other) => return Err(Failed::unusable(format!("--version {other}: it is 1 or 2"))),
    };
    match forms::shape_fault(version, cards, room) {
        Some((_, told)) => Err(Failed::unusable(format!("--{told} (rule 2.2)"))),
        None => Image::make(version, cards, room).map_err(Failed::refused),
    }
}

/// Saves an image in a new file, and says so.
pub fn saved(path: &Path, image: Image) -> Outcome {
    if path.exists() {
        return Err(exists(path));
    }
    let file = ImageFile::create(path, image).map_err(|why| match why {
        FileError::Exists => exists(path),
        FileError::Unreadable(why) if why.kind() == ErrorKind::NotFound => Failed::unusable(
            format!("{}: the folder for it is not there", path.display()),
        ),
        FileError::Unreadable(why) => {
            Failed::unusable(format!("{}: it cannot be made: {why}", path.display()))
        }
        why => Failed::unusable(format!("{}: {why}", path.display())),
    })?;
    let (path, image) = (path.display(), described(file.image()));
    Done::changed(format!("{path}: made, {image}\n"), true)
}

pub fn exists(path: &Path) -> Failed {
    let path = path.display();
    Failed::unusable(format!(
        "{path}: there is such a file already; nothing was changed"
    ))
}
