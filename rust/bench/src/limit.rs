//! The limit: a loop that only touches the bytes that a run has to touch. It
//! reads the image and the stream once, copies each text where the command's
//! act says, and writes entries and lines. It judges nothing.

use crate::plain::{language, Line, Version};

fn u16_at(bytes: &[u8], at: usize) -> usize {
    u16::from_le_bytes([bytes[at], bytes[at + 1]]).into()
}

/// Reads an image once.
pub fn look(image: &[u8]) -> u64 {
    let words = image.chunks_exact(8);
    words.fold(0, |sum, word| {
        sum | u64::from_le_bytes(word.try_into().unwrap())
    })
}

/// One pass over what a run touches: how many commands there were. The stream
/// is one of whole commands for cards that exist.
pub fn run<V: Version>(
    image: &mut [u8],
    stream: &[u8],
    reply: &mut [u8],
    lines: &mut [Line],
) -> usize {
    let sum = look(image);
    let (cards, room) = (u16_at(image, 6), u16_at(image, 8));
    let (mut at, mut count) = (0, 0);
    while at < stream.len() {
        let length = u16_at(stream, at + 50);
        let act = stream[at] as usize;
        let card = u16_at(stream, at + 2) % cards;
        let language = language::<V>(&stream[at..]);
        let entry = 16 + V::ENTRY * card;
        let (length_at, side) = match act {
            2 | 4 => (V::LENGTHS + 2 * language, 1 + language),
            _ => (V::ORIGINAL, 0),
        };
        let bodies = 16 + V::ENTRY * cards;
        let body = bodies + ((V::TRANSLATIONS + 1) * card + side) * room;
        match act {
            1 | 2 => {
                let shown = u16_at(image, entry + length_at).min(reply.len());
                reply[..shown].copy_from_slice(&image[body..body + shown]);
            }
            3 | 4 => {
                let written = length.min(room);
                let text = &stream[at + V::FIXED..][..written];
                image[body..body + written].copy_from_slice(text);
            }
            _ => {}
        }
        image[entry..entry + 16].copy_from_slice(&stream[at + 4..at + 20]);
        lines[count] = [sum, act as u64, at as u64, length as u64, 0, 0, 0, 0];
        count += 1;
        at += V::FIXED + length;
    }
    count
}
