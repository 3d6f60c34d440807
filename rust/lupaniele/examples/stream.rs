//! Walks a stream, commands end to end, and answers each one on a fresh card (rules 8.1 and 8.2); then the same as one
//! run, with room for two answers at a time (rule 8.5).

use std::error::Error;

use lupaniele::{Answer, Command, Image, Pair, Stamp, Stream, Version};

/// A write; a command of zeros, which is malformed: answered, and passed over; a read; and five bytes that are no whole
/// command.
fn stream() -> Result<Vec<u8>, Box<dyn Error>> {
    let stamp = Stamp::new(1, 1, 0);
    let pair = Pair::new(stamp, stamp);
    let read = Command::read_original(0).shared(pair);
    let mut bytes = Command::write_original(0, b"205")
        .exclusive(pair)
        .to_bytes(Version::One)?;
    bytes.extend(vec![0; read.length(Version::One)]);
    read.append_to(Version::One, &mut bytes)?;
    bytes.extend(b"hello");
    Ok(bytes)
}

fn main() -> Result<(), Box<dyn Error>> {
    let stream = stream()?;
    let (mut image, mut reply) = (Image::make(Version::One, 1, 16)?, [0; 16]);
    let mut walk = Stream::new(Version::One, &stream);
    let mut at = walk.place();
    while let Some(command) = walk.next() {
        let answer = image.answer_bytes(command, &mut reply);
        println!(
            "at {at}: {}, {:?}",
            answer.number,
            String::from_utf8_lossy(answer.text(&reply))
        );
        at = walk.place();
    }
    println!(
        "cut at {at} of {}, as one call says: {}",
        stream.len(),
        walk.end()
    );

    let mut image = Image::make(Version::One, 1, 16)?;
    let (mut lines, mut at) = ([[0; 8]; 2], 0);
    loop {
        let (count, end) = image.run_into(&stream[at..], &mut reply, &mut lines);
        if count == 0 {
            break;
        }
        at += end;
        let answers = lines[..count].iter().copied().filter_map(Answer::from_line);
        let numbers: Vec<&str> = answers.map(|answer| answer.number.name()).collect();
        println!("a run to {at}: {}", numbers.join(", "));
    }
    Ok(())
}
