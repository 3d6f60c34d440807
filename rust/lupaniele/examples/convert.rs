//! Converts a store of version 1 into one of version 2, and goes on with four translations.

use std::error::Error;

use lupaniele::{Command, Draft, Image, Language, Pair, Stamp, Version};

/// One request of desk 1, exclusive, and what came of it.
fn send(image: &mut Image, what: &str, draft: Draft) -> Result<(), Box<dyn Error>> {
    let (stamp, mut reply) = (Stamp::new(1, 1, 0), [0; 16]);
    let answer = image.answer(&draft.exclusive(Pair::new(stamp, stamp)), &mut reply)?;
    let text = String::from_utf8_lossy(answer.text(&reply)).into_owned();
    println!(
        "{what}: {}, from edition {}, {text:?}",
        answer.number, answer.translated_from
    );
    Ok(())
}

fn main() -> Result<(), Box<dyn Error>> {
    let mut image = Image::make(Version::One, 1, 16)?;
    send(
        &mut image,
        "write the original",
        Command::write_original(0, b"205"),
    )?;
    let translation = Command::write_translation(0, Language::First, 1, b"401");
    send(&mut image, "write its translation", translation)?;

    let mut image = image.convert()?;
    println!(
        "converted: {}, {} bytes",
        image.version(),
        image.bytes().len()
    );
    let read = |language| Command::read_translation(0, language);
    send(&mut image, "read language 0", read(Language::First))?;
    send(&mut image, "read language 1", read(Language::Second))?;
    let translation = Command::write_translation(0, Language::Second, 1, b"402");
    send(&mut image, "write language 1", translation)?;
    send(&mut image, "read language 1", read(Language::Second))?;
    send(
        &mut image,
        "write the original again",
        Command::write_original(0, b"206"),
    )?;
    send(&mut image, "read language 0", read(Language::First))?;
    send(&mut image, "read language 1", read(Language::Second))?;
    match image.convert() {
        Ok(_) => println!("converted again"),
        Err(number) => println!("converted again: {number}"),
    }
    Ok(())
}
