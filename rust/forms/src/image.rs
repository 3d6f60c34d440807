use std::fmt::Write;
use std::iter::Peekable;
use std::vec::IntoIter;

use lupaniele::{Broken, BrokenCard, Card, Contents, Image, Language, Mark, Pair, Text, Version};

use crate::command::{in_language, read_side};
use crate::steps::write_block;
use crate::{Fault, Got, Line, Wrong, lines, mark, pair, quoted, read_payload, shape_fault};

/// An image as text: its shape, and a block for each card that is not as in a fresh image.
///
/// ```
/// use lupaniele::{Image, Version};
/// assert_eq!(forms::image(&Image::make(Version::Two, 3, 64)?), "cards 3 room 64 version 2\n");
/// # Ok::<(), lupaniele::Number>(())
/// ```
#[must_use]
pub fn image<B: AsRef<[u8]>>(image: &Image<B>) -> String {
    let version = match image.version() {
        Version::One => String::new(),
        version => format!(" {version}"),
    };
    let mut text = format!("cards {} room {}{version}\n", image.count(), image.room());
    for card in image.cards() {
        if card.contents() != Contents::default() {
            write_card(&mut text, image.version(), &card);
        }
    }
    text
}

fn write_card(text: &mut String, version: Version, card: &Card) {
    let _ = writeln!(text, "card {}", card.number());
    if card.pair() != Pair::NONE {
        let _ = writeln!(text, "  pair {}", pair(card.pair()));
    }
    if card.mark() != Mark::NONE {
        let _ = writeln!(text, "  mark {}", mark(card.mark()));
    }
    if card.edition() > 0 {
        let _ = write!(text, "  original edition {} ", card.edition());
        write_text(text, card.original());
    }
    for language in version.languages() {
        let from = card.translated_from(*language).unwrap_or(0);
        if from > 0 {
            let named = in_language(version, *language);
            let _ = write!(text, "  translation{named} from {from} ");
            write_text(text, card.translation(*language).unwrap_or(&[]));
        }
    }
}

/// A card's text, its steps under it if it is structured.
fn write_text(text: &mut String, bytes: &[u8]) {
    match Text::read(bytes) {
        Ok(tree) => {
            text.push_str("steps\n");
            write_block(text, &tree, 2);
        }
        Err(_) => {
            let _ = writeln!(text, "text {}", quoted(bytes));
        }
    }
}

/// The image that a text says.
///
/// # Errors
///
/// Where the text is not as [`fn@image`] writes it, or the image would break a rule: the line says which.
///
/// ```
/// let text = "cards 1 room 16\ncard 0\n  original edition 1 text \"205\"\n  translation from 2 text \"401\"\n";
/// let wrong = forms::read_image(text).unwrap_err();
/// assert_eq!(wrong.to_string(), "line 4, column 3: language 0 is made from an edition above the stored one (rule 2.6)");
/// ```
pub fn read_image(text: &str) -> Got<Image> {
    let mut lines = lines(text)?.into_iter().peekable();
    let image = take_image(&mut lines)?;
    match lines.next() {
        None => Ok(image),
        Some(line) => line.wrong("`card` or the image's end is due"),
    }
}

/// The image at the front of some lines: `cards ..`, and each `card ..` that follows. What follows behind is left.
///
/// # Errors
///
/// As [`read_image`].
pub fn take_image(lines: &mut Peekable<IntoIter<Line>>) -> Got<Image> {
    let Some(mut first) = lines.next() else {
        return Err(Wrong::new(
            1,
            1,
            "an image begins with its shape, as in `cards 2 room 64`",
        ));
    };
    let (version, cards, room) = read_shape(&mut first)?;
    let mut read: Vec<Entry> = Vec::new();
    while let Some(line) = lines.next_if(|line| line.is_at("card")) {
        let entry = read_card(line.clone(), version, cards)?;
        if read.last().is_some_and(|last| last.card >= entry.card) {
            return line.says("the cards stand in order, each once");
        }
        read.push(entry);
    }
    build(version, cards, room, &read)
}

fn read_shape(line: &mut Line) -> Got<(Version, u16, u16)> {
    if !line.takes("cards") {
        return line.wrong("the shape of an image is due, as in `cards 2 room 64`");
    }
    let at_cards = line.clone();
    let cards = line.u16_of("the number of cards")?;
    line.words("room")?;
    let at_room = line.clone();
    let room = line.u16_of("the room of a text")?;
    let mut version = Version::One;
    if line.takes("version") {
        let front = line.clone();
        version = match line.number_of("the version", 2)? {
            1 => Version::One,
            2 => Version::Two,
            _ => return front.wrong("the version is 1 or 2"),
        };
    }
    line.done()?;
    match shape_fault(version, cards, room) {
        None => Ok((version, cards, room)),
        Some((Fault::Cards, told)) => at_cards.says(told),
        Some((Fault::Room, told)) => at_room.says(told),
    }
}

/// A part of a card that has a line of its own.
#[derive(Clone, Copy, Debug, PartialEq, Eq)]
enum Part {
    Pair,
    Mark,
    Original,
    Translation(Language),
}

/// What the block of a card says, and the line of each part.
struct Entry {
    card: u16,
    line: Line,
    parts: Vec<(Part, Line)>,
    pair: Pair,
    mark: Mark,
    edition: u16,
    original: Vec<u8>,
    translations: [(u16, Vec<u8>); Language::ALL.len()],
}

impl Entry {
    fn contents(&self) -> Contents<'_> {
        Contents {
            pair: self.pair,
            mark: self.mark,
            edition: self.edition,
            original: &self.original,
            translations: self
                .translations
                .each_ref()
                .map(|(from, text)| (*from, &text[..])),
        }
    }

    /// The line where something is wrong.
    fn line_of(&self, why: BrokenCard) -> &Line {
        let part = match why {
            BrokenCard::Stamp(_) => Part::Pair,
            BrokenCard::Mark | BrokenCard::Zeros => Part::Mark,
            BrokenCard::OriginalLong | BrokenCard::OriginalUnwritten | BrokenCard::OriginalTail => {
                Part::Original
            }
            BrokenCard::NoLanguage(language)
            | BrokenCard::TranslationLong(language)
            | BrokenCard::TranslationAhead(language)
            | BrokenCard::TranslationUnwritten(language)
            | BrokenCard::TranslationTail(language) => Part::Translation(language),
        };
        let line = self.parts.iter().find(|(other, _)| *other == part);
        line.map_or(&self.line, |(_, line)| line)
    }
}

fn read_card(mut line: Line, version: Version, cards: u16) -> Got<Entry> {
    let front = line.clone();
    line.words("card")?;
    let at_card = line.clone();
    let card = line.u16_of("the card")?;
    if card >= cards {
        let last = cards.saturating_sub(1);
        return at_card.says(format!("card {card}: the cards are 0 to {last}"));
    }
    let mut entry = Entry {
        card,
        line: front,
        parts: Vec::new(),
        pair: Pair::NONE,
        mark: Mark::NONE,
        edition: 0,
        original: Vec::new(),
        translations: Default::default(),
    };
    for mut under in line.under() {
        let front = under.clone();
        let part = read_part(&mut under, version, &mut entry)?;
        under.done()?;
        if entry.parts.iter().any(|(other, _)| *other == part) {
            return front.says("this stands on the card already");
        }
        entry.parts.push((part, front));
    }
    line.done()?;
    Ok(entry)
}

fn read_part(line: &mut Line, version: Version, entry: &mut Entry) -> Got<Part> {
    if line.takes("pair") {
        entry.pair = line.pair()?;
        return Ok(Part::Pair);
    }
    if line.takes("mark") {
        entry.mark = line.mark()?;
        return Ok(Part::Mark);
    }
    if !line.is_at("original") && !line.is_at("translation") {
        return line.wrong("`pair`, `mark`, `original` or `translation` is due");
    }
    match read_side(line, version)? {
        None => {
            line.words("edition")?;
            entry.edition = line.u16_of("the edition")?;
            entry.original = read_payload(line)?;
            Ok(Part::Original)
        }
        Some(language) => {
            line.words("from")?;
            let from = line.u16_of("the edition that it is made from")?;
            entry.translations[usize::from(language.number())] = (from, read_payload(line)?);
            Ok(Part::Translation(language))
        }
    }
}

fn build(version: Version, cards: u16, room: u16, read: &[Entry]) -> Got<Image> {
    let mut contents = vec![Contents::default(); cards.into()];
    for entry in read {
        contents[usize::from(entry.card)] = entry.contents();
    }
    Image::of_cards(version, room, &contents).map_err(|broken| {
        let told = |why: &dyn std::fmt::Display| format!("{why} (rule {})", broken.rule());
        let place = match broken {
            Broken::Card { card, why } => {
                let entry = read.iter().find(|entry| entry.card == card);
                entry.map(|entry| entry.line_of(why).says::<()>(told(&why)))
            }
            _ => None,
        };
        match place {
            Some(Err(wrong)) => wrong,
            _ => Wrong::new(1, 1, told(&broken)),
        }
    })
}
