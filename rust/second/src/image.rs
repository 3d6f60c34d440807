//! The image: header, entries, bodies; soundness; a fresh image (rules 2.1 to
//! 2.7); conversion to version 2.

use std::iter::repeat;
use std::ops::Range;

use crate::endian::{put, u16_at};
use crate::entry::Entry;
use crate::format::Format;
use crate::language::Language;
use crate::number::{ACCEPTED, NOT_MADE, UNSOUND};

/// The bytes of the header.
pub const HEADER_BYTES: usize = 16;
/// The most bytes an image has.
pub const IMAGE_LIMIT: usize = 65_536;

const MAGIC: [u8; 4] = [0x52, 0x43, 0x31, 0x00];
const CARDS_LIMIT: usize = 128;
const ROOM_LIMIT: usize = 1_024;
const ROOM_STEP: usize = 16;

/// The version, the cards N and the room C of an image, always within the
/// rules.
#[derive(Clone, Copy, Debug, PartialEq, Eq, Hash)]
pub struct Layout {
    format: Format,
    cards: usize,
    room: usize,
}

impl Layout {
    /// The layout of N cards with room C, or none if these break the rules.
    pub fn new(format: Format, cards: u64, room: u64) -> Option<Layout> {
        let cards = usize::try_from(cards).ok()?;
        let room = usize::try_from(room).ok()?;
        let in_range = (1..=CARDS_LIMIT).contains(&cards)
            && (ROOM_STEP..=ROOM_LIMIT).contains(&room)
            && room.is_multiple_of(ROOM_STEP);
        let layout = in_range.then_some(Layout {
            format,
            cards,
            room,
        })?;
        (layout.size() <= IMAGE_LIMIT).then_some(layout)
    }

    /// The layout that the 16 bytes of a header of this version give, or none
    /// if there are fewer bytes or one of them breaks the rules.
    pub fn of_header(format: Format, bytes: &[u8]) -> Option<Layout> {
        let header = bytes.get(..HEADER_BYTES)?;
        let (cards, room) = (u16_at(header, 6)?, u16_at(header, 8)?);
        let layout = Layout::new(format, cards.into(), room.into())?;
        (header == layout.header()).then_some(layout)
    }

    /// The layout of a sound image of this version, or none if the bytes are
    /// none.
    pub fn of_sound(format: Format, image: &[u8]) -> Option<Layout> {
        let layout = Layout::of_header(format, image)?;
        let sound = image.len() == layout.size()
            && (0..)
                .take(layout.cards)
                .all(|card| layout.card_is_sound(image, card).unwrap_or(false));
        sound.then_some(layout)
    }

    /// The version.
    pub fn format(self) -> Format {
        self.format
    }

    /// The cards, N.
    pub fn cards(self) -> usize {
        self.cards
    }

    /// The room, C.
    pub fn room(self) -> usize {
        self.room
    }

    /// The length of the whole image: 16 + 32N + 2CN in version 1, 16 + 48N +
    /// 5CN in version 2.
    // At most 16 + 48 * 128 + 5 * 1,024 * 128.
    #[allow(clippy::arithmetic_side_effects)]
    pub fn size(self) -> usize {
        self.bodies_start() + self.format.bodies() * self.room * self.cards
    }

    /// Where the bodies begin.
    // At most 16 + 48 * 128.
    #[allow(clippy::arithmetic_side_effects)]
    fn bodies_start(self) -> usize {
        HEADER_BYTES + self.format.entry_bytes() * self.cards
    }

    /// The 16 bytes of the header.
    pub fn header(self) -> [u8; HEADER_BYTES] {
        let mut header = [0; HEADER_BYTES];
        put(&mut header, 0, &MAGIC);
        put(&mut header, 4, &self.format.version().to_le_bytes());
        put(&mut header, 6, &low_16_bits(self.cards).to_le_bytes());
        put(&mut header, 8, &low_16_bits(self.room).to_le_bytes());
        header
    }

    /// Where a card's entry stands, or none if the card is N or more.
    // Within the size, as the card is below N.
    #[allow(clippy::arithmetic_side_effects)]
    pub fn entry_range(self, card: u16) -> Option<Range<usize>> {
        let card = self.existing(card)?;
        let bytes = self.format.entry_bytes();
        let start = HEADER_BYTES + bytes * card;
        Some(start..start + bytes)
    }

    /// Where a card's body in this language stands, or none if the card is N
    /// or more, or the version has no such language.
    // Within the size, as the card is below N and the place one of its bodies.
    #[allow(clippy::arithmetic_side_effects)]
    pub fn body_range(self, card: u16, language: Language) -> Option<Range<usize>> {
        let place = match language {
            Language::Original => 0,
            Language::Translation(language) => 1 + usize::from(language),
        };
        if place >= self.format.bodies() {
            return None;
        }
        let body = self.format.bodies() * self.existing(card)? + place;
        let start = self.bodies_start() + self.room * body;
        Some(start..start + self.room)
    }

    /// A card's entry in this image.
    pub fn entry(self, image: &[u8], card: u16) -> Option<Entry> {
        Entry::from_bytes(self.format, image.get(self.entry_range(card)?)?)
    }

    /// A card's text in this image: the first bytes of its body.
    pub fn text(self, image: &[u8], card: u16, language: Language) -> Option<&[u8]> {
        let length = self.entry(image, card)?.length(language);
        let body = image.get(self.body_range(card, language)?)?;
        body.get(..usize::from(length))
    }

    /// Replaces a card's entry.
    pub fn put_entry(self, image: &mut [u8], card: u16, entry: Entry) {
        if let Some(range) = self.entry_range(card) {
            put(image, range.start, &entry.to_bytes(self.format));
        }
    }

    /// Writes a text into a body, with zeros behind it (rule 4.5). The length
    /// in the entry is not touched.
    pub fn put_text(self, image: &mut [u8], card: u16, language: Language, text: &[u8]) {
        let range = self.body_range(card, language);
        if let Some(body) = range.and_then(|range| image.get_mut(range)) {
            let bytes = text.iter().copied().chain(repeat(0));
            body.iter_mut().zip(bytes).for_each(|(to, from)| *to = from);
        }
    }

    /// The texts of a card: the original, then each translation.
    pub fn languages(self) -> impl Iterator<Item = Language> {
        let translations = (0..).take(self.format.translations());
        std::iter::once(Language::Original).chain(translations.map(Language::Translation))
    }

    fn existing(self, card: u16) -> Option<usize> {
        let card = usize::from(card);
        (card < self.cards).then_some(card)
    }

    /// What rule 2.6 asks of one card, of its entry and of its bodies.
    fn card_is_sound(self, image: &[u8], card: u16) -> Option<bool> {
        let entry = self.entry(image, card)?;
        let zero_past = |language| {
            let body = image.get(self.body_range(card, language)?)?;
            let past = body.get(usize::from(entry.length(language))..)?;
            Some(past.iter().all(|&byte| byte == 0))
        };
        let mut tails = self.languages().map(zero_past);
        Some(entry.is_sound(self.room) && tails.all(|tail| tail == Some(true)))
    }
}

/// Whether an image of version 1 is sound, for any bytes of any length.
pub fn is_sound(image: &[u8]) -> bool {
    Format::V1.is_sound(image)
}

/// Makes a fresh image of version 1, as [`Format::make_fresh`] does.
pub fn make_fresh(image: &mut [u8], cards: u64, room: u64) -> u8 {
    Format::V1.make_fresh(image, cards, room)
}

impl Format {
    /// Whether an image of this version is sound, for any bytes of any length.
    pub fn is_sound(self, image: &[u8]) -> bool {
        Layout::of_sound(self, image).is_some()
    }

    /// Makes a fresh image and answers 0 (rule 2.7). Where no image has this N
    /// and C, or one has another length than the lent bytes, the answer is 14
    /// and these stay as they are.
    pub fn make_fresh(self, image: &mut [u8], cards: u64, room: u64) -> u8 {
        match Layout::new(self, cards, room) {
            Some(layout) if layout.size() == image.len() => {
                image.fill(0);
                put(image, 0, &layout.header());
                ACCEPTED
            }
            _ => NOT_MADE,
        }
    }
}

/// Converts an image of version 1 to version 2, in the lent bytes: every card
/// as it is, its translation as language 0, nothing in the other three. Answers
/// 0; 9 if the image is not sound; else 14 if no image of version 2 has its N
/// and C, or one has another length than the target. With 9 and 14 nothing is
/// written.
pub fn convert(image: &[u8], target: &mut [u8]) -> u8 {
    let Some(old) = Layout::of_sound(Format::V1, image) else {
        return UNSOUND;
    };
    let (cards, room) = (low_16_bits(old.cards), low_16_bits(old.room));
    let Some(new) = Layout::new(Format::V2, cards.into(), room.into()) else {
        return NOT_MADE;
    };
    if Format::V2.make_fresh(target, cards.into(), room.into()) != ACCEPTED {
        return NOT_MADE;
    }
    for card in 0..cards {
        // An entry of version 1 has none but language 0.
        new.put_entry(target, card, old.entry(image, card).unwrap_or_default());
        for language in old.languages() {
            let text = old.text(image, card, language).unwrap_or_default();
            new.put_text(target, card, language, text);
        }
    }
    ACCEPTED
}

fn low_16_bits(number: usize) -> u16 {
    (number & 0xffff) as u16
}
