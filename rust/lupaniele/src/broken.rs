use std::fmt;

use crate::bytes::{slice_at, u16_at};
use crate::cards::{Card, HEADER};
use crate::image::named_version;
use crate::{Image, Language, Stamp, Version};

/// Why bytes are no sound image: the first rule that they break (2.2 to 2.6, 15.2 to 15.5). The verdict is the store's;
/// this says where to look.
///
/// ```
/// use lupaniele::{Broken, BrokenCard, Image, Version};
/// let mut bytes = Image::make(Version::One, 2, 16)?.into_bytes();
/// bytes[16 + 32 + 24] = 1; // card 1: edition 1
/// bytes[16 + 32 + 26] = 2; // and a translation made from edition 2
/// let why = Image::check(bytes).unwrap_err();
/// assert_eq!(why.to_string(), "card 1: language 0 is made from an edition above the stored one");
/// # Ok::<(), lupaniele::Number>(())
/// ```
#[derive(Clone, Copy, Debug, PartialEq, Eq)]
pub enum Broken {
    /// The first 16 bytes are no header: their signature, their version or their zeros.
    Header,
    /// No image has so many cards with this room.
    Shape {
        /// The cards that the header names.
        cards: u16,
        /// The room that it names.
        room: u16,
    },
    /// The bytes are not as many as the header says.
    Length {
        /// How many they are.
        length: usize,
        /// How many the header says.
        needed: usize,
    },
    /// A card is not as it must be.
    Card {
        /// The card.
        card: u16,
        /// What is wrong there.
        why: BrokenCard,
    },
    /// None of these, and the store says no.
    Other,
}

/// What is wrong with a card (rules 2.6 and 15.5).
///
/// ```
/// let why = lupaniele::BrokenCard::Stamp(lupaniele::Stamp::new(7, 0, 0));
/// assert_eq!(why.to_string(), "the stamp 7.0.0 has no desk");
/// ```
#[derive(Clone, Copy, Debug, PartialEq, Eq)]
pub enum BrokenCard {
    /// A stamp without a desk.
    Stamp(Stamp),
    /// Half a commit mark.
    Mark,
    /// A field of zeros that has something else.
    Zeros,
    /// An original longer than the room.
    OriginalLong,
    /// An original, and no edition.
    OriginalUnwritten,
    /// Bytes behind the original.
    OriginalTail,
    /// A translation in a language that the version does not have; no bytes say this.
    NoLanguage(Language),
    /// A translation longer than the room.
    TranslationLong(Language),
    /// A translation made from an edition that is not there yet.
    TranslationAhead(Language),
    /// A translation that is made from no edition.
    TranslationUnwritten(Language),
    /// Bytes behind a translation.
    TranslationTail(Language),
}

impl Broken {
    /// The rule of docs/RULES.md that is broken. Those of version 2 (15.2, 15.3 and 15.5) point back to these.
    ///
    /// ```
    /// use lupaniele::{Broken, Image};
    /// assert_eq!(Image::check(&b"no image"[..]).map_err(|broken| broken.rule()), Err("2.3"));
    /// assert_eq!(Broken::Shape { cards: 1, room: 60 }.rule(), "2.2");
    /// ```
    #[must_use]
    pub fn rule(&self) -> &'static str {
        match self {
            Broken::Header => "2.3",
            Broken::Shape { .. } => "2.2",
            Broken::Card { why, .. } => match why {
                BrokenCard::Stamp(_) => "1.2",
                BrokenCard::Mark => "1.7",
                BrokenCard::NoLanguage(_) => "15.1",
                _ => "2.6",
            },
            Broken::Length { .. } | Broken::Other => "2.6",
        }
    }

    /// The first byte to look at, of the bytes that [`Image::check`] refused with this; their length where they end
    /// too early.
    ///
    /// ```
    /// use lupaniele::{Image, Version};
    /// let mut bytes = Image::make(Version::One, 2, 16)?.into_bytes();
    /// bytes[16 + 32 + 16] = 5; // card 1: the desk of a mark, and no transaction
    /// let broken = Image::check(&bytes[..]).unwrap_err();
    /// assert_eq!((broken.rule(), broken.place(&bytes)), ("1.7", 64));
    /// # Ok::<(), lupaniele::Number>(())
    /// ```
    #[must_use]
    pub fn place(&self, bytes: &[u8]) -> usize {
        match *self {
            Broken::Header => in_header(bytes),
            Broken::Shape { cards, room } => match Image::make(Version::One, cards, SMALLEST) {
                Ok(_) if Image::make(Version::One, 1, room).is_err() => ROOM,
                _ => CARDS,
            },
            Broken::Length { length, needed } => length.min(needed),
            Broken::Card { card, why } => {
                let version = named_version(bytes).unwrap_or(Version::One);
                Card::new(version, bytes, card).place(why)
            }
            Broken::Other => 0,
        }
    }

    /// The first rule that bytes break which are no sound image.
    pub(crate) fn first(bytes: &[u8]) -> Broken {
        let signed = slice_at(bytes, 0, 4) == b"RC1\0" && slice_at(bytes, 10, 6) == [0; 6];
        let (true, Some(version)) = (signed, named_version(bytes)) else {
            return Broken::Header;
        };
        let (cards, room) = (u16_at(bytes, 6), u16_at(bytes, 8));
        let Ok(fresh) = Image::make(version, cards, room) else {
            return Broken::Shape { cards, room };
        };
        let (length, needed) = (bytes.len(), fresh.bytes().len());
        if length != needed {
            return Broken::Length { length, needed };
        }
        let broken = (0..cards).find_map(|card| {
            let why = in_card(version, &Card::new(version, bytes, card), room)?;
            Some(Broken::Card { card, why })
        });
        broken.unwrap_or(Broken::Other)
    }
}

/// Where the header names its cards and their room (rule 2.3).
const CARDS: usize = 6;
const ROOM: usize = 8;

/// The smallest room (rule 2.2).
const SMALLEST: u16 = 16;

/// The first byte of a header that is none.
fn in_header(bytes: &[u8]) -> usize {
    let fresh = |version| Image::make(version, 1, SMALLEST);
    let Ok(fresh) = fresh(named_version(bytes).unwrap_or(Version::One)) else {
        return 0;
    };
    let header = fresh.bytes().iter().take(HEADER).enumerate();
    let mut wrong = header.filter(|(at, byte)| {
        let named = (CARDS..ROOM + 2).contains(at);
        bytes.get(*at).is_none_or(|there| !named && there != *byte)
    });
    wrong.next().map_or(0, |(at, _)| at)
}

impl Card<'_> {
    /// The byte of the image where something is wrong with this card.
    fn place(&self, why: BrokenCard) -> usize {
        let pair = self.pair();
        match why {
            BrokenCard::Stamp(stamp) if stamp == pair.s => self.entry_place(),
            BrokenCard::Stamp(_) => self.entry_place() + 8,
            BrokenCard::Mark => self.entry_place() + 16,
            BrokenCard::Zeros if u16_at(self.entry(), 18) != 0 => self.entry_place() + 18,
            BrokenCard::Zeros => self.entry_place() + 44,
            BrokenCard::OriginalLong => self.length_place(None),
            BrokenCard::OriginalUnwritten => self.entry_place() + 24,
            BrokenCard::OriginalTail => self.tail_place(0, self.original_length()),
            BrokenCard::TranslationLong(language) => self.length_place(Some(language)),
            BrokenCard::TranslationAhead(language) | BrokenCard::TranslationUnwritten(language) => {
                self.translated_from_place(language)
            }
            BrokenCard::TranslationTail(language) => {
                let length = self.translation_length(language).unwrap_or(0);
                self.tail_place(1 + usize::from(language.number()), length)
            }
            BrokenCard::NoLanguage(_) => self.entry_place(),
        }
    }

    /// The first byte behind a text that is not zero.
    fn tail_place(&self, at: usize, length: u16) -> usize {
        let mut tail = self.body(at).iter().enumerate().skip(length.into());
        let first = tail.find(|(_, byte)| **byte != 0);
        self.body_place(at) + first.map_or(0, |(at, _)| at)
    }
}

fn in_card(version: Version, card: &Card, room: u16) -> Option<BrokenCard> {
    let (pair, mark) = (card.pair(), card.mark());
    let stamps = [pair.s, pair.x];
    let no_desk = |stamp: &Stamp| *stamp != Stamp::NONE && stamp.desk_id().desk == 0;
    if let Some(stamp) = stamps.into_iter().find(no_desk) {
        return Some(BrokenCard::Stamp(stamp));
    }
    if (mark.desk == 0) != (mark.transaction == 0) {
        return Some(BrokenCard::Mark);
    }
    if u16_at(card.entry(), 18) != 0 || slice_at(card.entry(), 44, 4).iter().any(|byte| *byte != 0)
    {
        return Some(BrokenCard::Zeros);
    }
    let length = card.original_length();
    if length > room {
        return Some(BrokenCard::OriginalLong);
    }
    if card.edition() == 0 && length > 0 {
        return Some(BrokenCard::OriginalUnwritten);
    }
    if has_tail(card.body(0), length) {
        return Some(BrokenCard::OriginalTail);
    }
    let languages = version.languages().iter();
    languages
        .copied()
        .find_map(|language| in_translation(card, language, room))
}

fn in_translation(card: &Card, language: Language, room: u16) -> Option<BrokenCard> {
    let (length, from) = (
        card.translation_length(language)?,
        card.translated_from(language)?,
    );
    if length > room {
        return Some(BrokenCard::TranslationLong(language));
    }
    if from > card.edition() {
        return Some(BrokenCard::TranslationAhead(language));
    }
    if from == 0 && length > 0 {
        return Some(BrokenCard::TranslationUnwritten(language));
    }
    let body = card.body(1 + usize::from(language.number()));
    has_tail(body, length).then_some(BrokenCard::TranslationTail(language))
}

fn has_tail(body: &[u8], length: u16) -> bool {
    body.iter().skip(length.into()).any(|byte| *byte != 0)
}

impl fmt::Display for Broken {
    fn fmt(&self, to: &mut fmt::Formatter) -> fmt::Result {
        match self {
            Broken::Header => to.write_str("the first 16 bytes are not the header of an image"),
            Broken::Shape { cards, room } => {
                write!(to, "no image has {cards} cards with room {room}")
            }
            Broken::Length { length, needed } => {
                write!(to, "{length} bytes, where the header says {needed}")
            }
            Broken::Card { card, why } => write!(to, "card {card}: {why}"),
            Broken::Other => to.write_str("not sound"),
        }
    }
}

impl fmt::Display for BrokenCard {
    fn fmt(&self, to: &mut fmt::Formatter) -> fmt::Result {
        match self {
            BrokenCard::Stamp(stamp) => write!(to, "the stamp {stamp} has no desk"),
            BrokenCard::Mark => to.write_str("the commit mark is half a mark"),
            BrokenCard::Zeros => to.write_str("a field of zeros has something else"),
            BrokenCard::OriginalLong => to.write_str("the original is longer than the room"),
            BrokenCard::OriginalUnwritten => to.write_str("an original stands at edition 0"),
            BrokenCard::OriginalTail => to.write_str("bytes stand behind the original"),
            BrokenCard::NoLanguage(language) => write!(to, "the version has no {language}"),
            BrokenCard::TranslationLong(language) => {
                write!(to, "{language} is longer than the room")
            }
            BrokenCard::TranslationAhead(language) => {
                write!(
                    to,
                    "{language} is made from an edition above the stored one"
                )
            }
            BrokenCard::TranslationUnwritten(language) => {
                write!(to, "{language} has a text that is made from no edition")
            }
            BrokenCard::TranslationTail(language) => write!(to, "bytes stand behind {language}"),
        }
    }
}

impl std::error::Error for Broken {}

#[cfg(test)]
mod tests {
    use super::*;
    use crate::{Contents, Mark, Pair};
    use second::random::Random;

    /// An image of two cards, each with all that a card can have.
    fn full(version: Version) -> Image {
        let stamp = Stamp::new(3, 2, 1);
        let mut card = Contents {
            pair: Pair::new(stamp, stamp),
            mark: Mark::new(5, 7),
            edition: 2,
            original: b"Drop at 205",
            ..Contents::default()
        };
        for language in version.languages() {
            card.translations[usize::from(language.number())] = (1, b"T\xc3\xb8m");
        }
        Image::of_cards(version, 16, &[card, card]).expect("a sound image")
    }

    /// Whether a byte is in the entry or the bodies of a card.
    fn belongs(card: &Card, version: Version, place: usize) -> bool {
        let bodies = 1 + version.languages().len();
        let entry = card.entry_place()..card.entry_place() + version.entry_bytes();
        entry.contains(&place) || (card.body_place(0)..card.body_place(bodies)).contains(&place)
    }

    #[test]
    fn the_place_is_where_the_rule_is_broken() {
        let mut random = Random::new(34);
        let mut seen = [0; 4];
        for version in [Version::One, Version::Two] {
            let good = full(version).into_bytes();
            for _ in 0..50_000 {
                let (mut bytes, at) = (good.clone(), random.index(good.len()));
                bytes[at] = random.byte();
                let length = random.index(good.len() + 1);
                bytes.truncate(if random.one_in(8) { length } else { good.len() });
                let Err(broken) = Image::check(&bytes[..]) else {
                    continue;
                };
                let place = broken.place(&bytes);
                seen[match broken {
                    Broken::Header => {
                        assert!(place < HEADER && place <= bytes.len());
                        0
                    }
                    Broken::Shape { .. } => {
                        assert!(at == place || at == place + 1, "{at} {place}");
                        1
                    }
                    Broken::Length { .. } => {
                        assert!(place <= bytes.len());
                        2
                    }
                    Broken::Card { card, .. } => {
                        let card = Card::new(version, &bytes, card);
                        assert!(belongs(&card, version, place), "{broken}: {place}");
                        assert!(belongs(&card, version, at), "{broken}: {at}");
                        3
                    }
                    Broken::Other => panic!("{version}: a rule without a name is broken"),
                }] += 1;
            }
        }
        assert!(seen.iter().all(|count| *count > 100), "{seen:?}");
    }
}
