//! Where an image has its bytes, in each version (rules 2.2 to 2.5 and 15.2 to
//! 15.4), and what a conversion makes (rules 15.9 and 15.10).

use second::Format;

use super::store::Card;

/// The bytes of an entry.
fn entry_bytes(format: Format) -> usize {
    match format {
        Format::V1 => 32,
        Format::V2 => 48,
    }
}

/// The texts of a card: the original and its translations.
pub fn texts(format: Format) -> usize {
    match format {
        Format::V1 => 2,
        Format::V2 => 5,
    }
}

/// The bytes of an image (rules 2.2 and 15.2).
pub fn size(format: Format, cards: usize, room: usize) -> usize {
    16 + entry_bytes(format) * cards + texts(format) * room * cards
}

/// The most bytes of an image.
pub const MOST: usize = 65_536;

/// Whether there is such an image (rules 2.2 and 15.2).
pub fn exists(format: Format, cards: u64, room: u64) -> bool {
    (1..=128).contains(&cards)
        && (16..=1_024).contains(&room)
        && room.is_multiple_of(16)
        && size(format, cards as usize, room as usize) <= MOST
}

/// A fresh image (rules 2.3, 2.7, 15.3 and 15.5).
pub fn fresh(format: Format, cards: usize, room: usize) -> Vec<u8> {
    let mut image = vec![0; size(format, cards, room)];
    let version = match format {
        Format::V1 => 1,
        Format::V2 => 2,
    };
    image[..6].copy_from_slice(&[0x52, 0x43, 0x31, 0, version, 0]);
    image[6..8].copy_from_slice(&(cards as u16).to_le_bytes());
    image[8..10].copy_from_slice(&(room as u16).to_le_bytes());
    image
}

/// Where the entry of a card stands (rules 2.4 and 15.3).
pub fn entry(format: Format, card: usize) -> usize {
    16 + entry_bytes(format) * card
}

/// Where a text of a card stands: 0 the original, then the translations (rules
/// 2.5 and 15.4).
pub fn body(format: Format, (cards, room): (usize, usize), card: usize, text: usize) -> usize {
    entry(format, cards) + (texts(format) * card + text) * room
}

/// Where an entry has the length of a text, and where the translated-from of a
/// language (rules 2.4 and 15.3).
fn length_at(format: Format, text: usize) -> usize {
    match (format, text) {
        (Format::V1, _) => 28 + 2 * text,
        (Format::V2, 0) => 26,
        (Format::V2, _) => 34 + 2 * text,
    }
}

fn from_at(format: Format, language: usize) -> usize {
    match format {
        Format::V1 => 26,
        Format::V2 => 28 + 2 * language,
    }
}

/// Writes the entry of a card into an image.
pub fn put_entry(format: Format, image: &mut [u8], at: usize, card: &Card) {
    let entry = entry(format, at);
    let bytes = &mut image[entry..entry + entry_bytes(format)];
    bytes[..8].copy_from_slice(&card.largest.s.to_le_bytes());
    bytes[8..16].copy_from_slice(&card.largest.x.to_le_bytes());
    bytes[16..18].copy_from_slice(&card.mark.desk.to_le_bytes());
    bytes[20..24].copy_from_slice(&card.mark.transaction.to_le_bytes());
    bytes[24..26].copy_from_slice(&card.edition.to_le_bytes());
    for (text, bytes_of) in card.texts.iter().enumerate().take(texts(format)) {
        let length = (bytes_of.len() as u16).to_le_bytes();
        let at = length_at(format, text);
        bytes[at..at + 2].copy_from_slice(&length);
    }
    for (language, from) in card.from.iter().enumerate().take(texts(format) - 1) {
        let at = from_at(format, language);
        bytes[at..at + 2].copy_from_slice(&from.to_le_bytes());
    }
}

/// Writes a text of a card into an image, and zeros behind it (rule 4.5).
pub fn put_text(
    format: Format,
    image: &mut [u8],
    shape: (usize, usize),
    at: (usize, usize),
    text: &[u8],
) {
    let body = body(format, shape, at.0, at.1);
    image[body..body + shape.1].fill(0);
    image[body..body + text.len()].copy_from_slice(text);
}

/// The number of a conversion of a sound image of version 1 into so many lent
/// bytes (rule 15.10).
pub fn conversion_number(cards: usize, room: usize, lent: usize) -> u8 {
    let size = size(Format::V2, cards, room);
    match lent == size && size <= MOST {
        true => 0,
        false => 14,
    }
}

/// The image of version 2 with these cards (rule 15.9).
pub fn image_of(cards: &[Card], room: usize) -> Vec<u8> {
    let mut image = fresh(Format::V2, cards.len(), room);
    let shape = (cards.len(), room);
    for (at, card) in cards.iter().enumerate() {
        put_entry(Format::V2, &mut image, at, card);
        for (text, bytes) in card.texts.iter().enumerate() {
            put_text(Format::V2, &mut image, shape, (at, text), bytes);
        }
    }
    image
}
