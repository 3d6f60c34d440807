//! A translation that is behind is not shown.

use lupaniele::desk::Desk;
use lupaniele::{DeskId, Image, Language, Version};

fn main() -> Result<(), Box<dyn std::error::Error>> {
    let mut store = Image::make(Version::One, 1, 64)?;
    let mut english = Desk::start(DeskId::new(1, 0));
    let mut norwegian = Desk::start(DeskId::new(2, 0));
    let original = english.write_original(&mut store, 0, b"Drop at 205")?;
    let text = "Tøm ved 205".as_bytes();
    norwegian.write_translation(&mut store, &original, Language::First, text)?;
    english.write_original(&mut store, 0, b"Drop at 203")?;
    if let Err(refused) = norwegian.read_translation(&mut store, 0, Language::First) {
        println!("not shown: {refused}");
    }
    Ok(())
}
