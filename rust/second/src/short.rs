//! Short names for the trials' stamps, commands and images, for tests and the
//! comparison.

// Nothing here is part of the store: a wrong call stops the test.
#![allow(clippy::expect_used, clippy::panic, clippy::indexing_slicing)]

use crate::stamp::stamp;
pub use crate::Format::{V1, V2};
use crate::{
    CommandFields, Entry, Format, Language, Layout, Mark, Pair, Place, Queue, Translation,
};

/// The original.
pub const ORIGINAL: Language = Language::Original;
/// The translation of version 1.
pub const TRANSLATION: Language = Language::Translation(0);

/// Act 1.
pub const READ_ORIGINAL: u8 = 1;
/// Act 2.
pub const READ_TRANSLATION: u8 = 2;
/// Act 3.
pub const WRITE_ORIGINAL: u8 = 3;
/// Act 4.
pub const WRITE_TRANSLATION: u8 = 4;
/// Act 5.
pub const VERIFY: u8 = 5;

/// Mode 1.
pub const SHARED: u8 = 1;
/// Mode 2.
pub const EXCLUSIVE: u8 = 2;

/// A mark that is not zero.
pub const MARK: Mark = Mark {
    desk: 0x8001,
    transaction: 0x8000_0001,
};

/// The stamp T.desk.0.
pub fn at(time: u32, desk: u16) -> u64 {
    stamp(time, desk, 0)
}

/// A = (1.1.0, 0).
pub fn a() -> Pair {
    Pair::new(at(1, 1), 0)
}

/// A' = (1.1.0, 1.1.0).
pub fn a_prime() -> Pair {
    Pair::new(at(1, 1), at(1, 1))
}

/// B = (2.2.0, 1.1.0).
pub fn b() -> Pair {
    Pair::new(at(2, 2), at(1, 1))
}

/// B' = (2.2.0, 2.2.0).
pub fn b_prime() -> Pair {
    Pair::new(at(2, 2), at(2, 2))
}

/// The fields of a command on card 0 whose other fields are zero.
pub fn fields(act: u8, mode: u8, pair: Pair) -> CommandFields {
    CommandFields {
        act,
        mode,
        pair,
        ..CommandFields::default()
    }
}

/// The bytes of a command without payload.
pub fn command(act: u8, mode: u8, pair: Pair) -> Vec<u8> {
    fields(act, mode, pair).with_payload(&[])
}

/// The bytes of an exclusive write of an original on card 0.
pub fn write_original(pair: Pair, text: &[u8]) -> Vec<u8> {
    fields(WRITE_ORIGINAL, EXCLUSIVE, pair).with_payload(text)
}

/// The bytes of an exclusive write of a translation on card 0.
pub fn write_translation(pair: Pair, edition: u16, text: &[u8]) -> Vec<u8> {
    let fields = fields(WRITE_TRANSLATION, EXCLUSIVE, pair);
    CommandFields { edition, ..fields }.with_payload(text)
}

/// The same command on another card.
pub fn on_card(card: u16, mut command: Vec<u8>) -> Vec<u8> {
    command[2..4].copy_from_slice(&card.to_le_bytes());
    command
}

/// A command of version 2 with these fields, about this language.
pub fn into(language: u8, fields: CommandFields) -> CommandFields {
    CommandFields {
        format: V2,
        language,
        ..fields
    }
}

/// A fresh image of version 1.
pub fn fresh(cards: u64, room: u64) -> Vec<u8> {
    fresh_of(V1, cards, room)
}

/// A fresh image of a version.
pub fn fresh_of(format: Format, cards: u64, room: u64) -> Vec<u8> {
    let layout = Layout::new(format, cards, room).expect("N and C keep the rules");
    let mut image = vec![0xee; layout.size()];
    assert_eq!(format.make_fresh(&mut image, cards, room), 0);
    image
}

/// The layout of an image of version 1 whose header is right.
pub fn layout(image: &[u8]) -> Layout {
    Layout::of_header(V1, image).expect("the header is right")
}

/// Sets a card's texts and its entry, whose lengths follow the texts, in an
/// image of version 1.
pub fn put_card(image: &mut [u8], card: u16, entry: Entry, original: &[u8], translation: &[u8]) {
    put_texts(layout(image), image, card, entry, &[original, translation]);
}

/// Sets a card's texts, the original first, and its entry, whose lengths
/// follow the texts; there are no more texts than the version has.
pub fn put_texts(layout: Layout, image: &mut [u8], card: u16, mut entry: Entry, texts: &[&[u8]]) {
    for (language, text) in layout.languages().zip(texts) {
        let length = text.len() as u16;
        match language {
            Language::Original => entry.original_length = length,
            Language::Translation(at) => entry.translations[usize::from(at)].length = length,
        }
        layout.put_text(image, card, language, text);
    }
    layout.put_entry(image, card, entry);
}

/// The image of one card with room 16, this entry and these texts.
pub fn one_card(entry: Entry, original: &[u8], translation: &[u8]) -> Vec<u8> {
    let mut image = fresh(1, 16);
    put_card(&mut image, 0, entry, original, translation);
    image
}

/// An entry of this edition and translated-from, as in version 1.
pub fn entry(edition: u16, translated_from: u16) -> Entry {
    entry_of(edition, [translated_from, 0, 0, 0])
}

/// An entry of this edition, with translated-from of each language.
pub fn entry_of(edition: u16, translated_from: [u16; 4]) -> Entry {
    Entry {
        edition,
        translations: translated_from.map(|from| Translation { from, length: 0 }),
        ..Entry::default()
    }
}

/// A queue that owns its places.
#[derive(Clone, Debug, Default, PartialEq, Eq)]
pub struct Kept {
    /// The places that are lent.
    pub places: Vec<Place>,
    /// How many stand.
    pub count: usize,
    /// The largest s and x.
    pub largest: Pair,
}

impl Kept {
    /// A queue of so many places in which these stand; the largest pair is
    /// that of the entries.
    pub fn new(length: usize, standing: &[Place]) -> Kept {
        let mut places = standing.to_vec();
        places.resize(length.max(standing.len()), Place::default());
        let largest = |pair: Pair, place: &Place| pair.larger(place.pair);
        Kept {
            places,
            count: standing.len(),
            largest: standing.iter().fold(Pair::default(), largest),
        }
    }

    /// Lends the queue for one turn, and keeps its count and largest pair.
    pub fn lend<T>(&mut self, turn: impl FnOnce(&mut Queue) -> T) -> T {
        let mut queue = Queue {
            places: &mut self.places,
            count: self.count,
            largest: self.largest,
        };
        let answer = turn(&mut queue);
        (self.count, self.largest) = (queue.count, queue.largest);
        answer
    }
}
