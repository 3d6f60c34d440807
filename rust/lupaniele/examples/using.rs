//! Makes a store of one card, writes its original, reads it back.

use std::error::Error;

use lupaniele::{Command, Image, Pair, Stamp, Version};

fn main() -> Result<(), Box<dyn Error>> {
    let mut image = Image::make(Version::One, 1, 16)?;
    let stamp = Stamp::new(1, 1, 0);
    let pair = Pair::new(stamp, stamp);

    let write = Command::write_original(0, b"205").exclusive(pair);
    let answer = image.answer(&write, &mut [])?;
    println!("write: {}, edition {}", answer.number, answer.edition);

    let mut reply = [0; 16];
    let read = Command::read_original(0).shared(pair);
    let answer = image.answer(&read, &mut reply)?;
    let text = String::from_utf8_lossy(answer.text(&reply));
    println!("read: {}, {text}", answer.number);
    Ok(())
}
