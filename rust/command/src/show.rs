//! `lupaniele show`: the cards of an image as a table, one card whole, as JSON, or as the image's text.

use std::fmt::Write;

use forms::{COLUMNS, cut, padded, width};
use lupaniele::{Card, Contents, Image, Language, Mark, Text, Version};

use crate::args::Args;
use crate::input::{described, image};
use crate::json;
use crate::outcome::{Done, Failed, Outcome, some};

pub fn run(args: &Args) -> Outcome {
    let path = args.path(0);
    if args.has("--text") && (args.has("--json") || args.has("--card")) {
        return Err(Failed::unusable(
            "--text is the text of the whole image, without --json and --card",
        ));
    }
    let number: Option<u16> = args.number("--card", CARDS).map_err(Failed::unusable)?;
    let image = image(path)?;
    if args.has("--text") {
        return Done::well(forms::image(&image));
    }
    let card = match number {
        None => None,
        Some(number) => Some(card(&image, number)?),
    };
    let name = path.display().to_string();
    match (args.has("--json"), card) {
        (true, card) => Done::well(json::image(&image, card)),
        (false, None) => Done::well(table(&name, &image)),
        (false, Some(card)) => Done::well(whole(&name, image.version(), &card)),
    }
}

/// What card may be named.
pub const CARDS: &str = "the cards of an image are 0 to 127 at the most (rule 2.2)";

/// A card of an image.
pub fn card(image: &Image, number: u16) -> Result<Card<'_>, Failed> {
    let last = image.count() - 1;
    let none = || {
        Failed::unusable(format!(
            "there is no card {number}: the image has the cards 0 to {last}"
        ))
    };
    image.card(number).ok_or_else(none)
}

/// What a translation is called: in version 1 there is one.
pub fn called(version: Version, language: Language) -> String {
    match version {
        Version::One => "translation".into(),
        Version::Two => language.to_string(),
    }
}

/// By how many editions a translation is behind; nothing where it is current, or was never made.
pub fn behind(card: &Card, language: Language) -> Option<u16> {
    let from = card.translated_from(language).filter(|from| *from > 0)?;
    card.shown(language).err().map(|_| card.edition() - from)
}

/// Widths of the table's columns but the last, and of the last.
const CARD: usize = 5;
const WHAT: usize = 13;
const EDITION: usize = 9;
const STATE: usize = 22;
const TEXT: usize = COLUMNS - CARD - WHAT - EDITION - STATE;

/// What is worth knowing of the whole image.
#[derive(Default)]
struct Counts {
    behind: usize,
    marked: usize,
    cut: usize,
}

/// All cards, a line for each text; cards that are as they were made stand together.
fn table(name: &str, image: &Image) -> String {
    let mut out = format!("{name}: {}\n\n", described(image));
    out += &row("card", "what", "edition", "state", "text");
    let (mut fresh, mut counts) = (None, Counts::default());
    for card in image.cards() {
        if card.contents() == Contents::default() {
            fresh = fresh.or(Some(card.number()));
            continue;
        }
        out += &unwritten(fresh.take(), card.number());
        out += &original(&card, &mut counts);
        out += &translations(image.version(), &card, &mut counts);
    }
    out + &unwritten(fresh, image.count()) + &counted(&counts)
}

fn row(card: &str, what: &str, edition: &str, state: &str, text: &str) -> String {
    let columns = [
        (card, CARD),
        (what, WHAT),
        (edition, EDITION),
        (state, STATE),
    ];
    let front: String = columns
        .map(|(text, columns)| padded(text, columns))
        .concat();
    format!("{}\n", (front + text).trim_end())
}

/// The cards from one that is as it was made to the one before `end`.
fn unwritten(first: Option<u16>, end: u16) -> String {
    let Some(first) = first else {
        return String::new();
    };
    let numbers = match end - 1 {
        last if last == first => first.to_string(),
        last => format!("{first} to {last}"),
    };
    format!("{}nothing is written yet\n", padded(&numbers, CARD + WHAT))
}

fn original(card: &Card, counts: &mut Counts) -> String {
    let state = match card.mark() {
        Mark::NONE => String::new(),
        mark => format!("marked by desk {}", mark.desk),
    };
    counts.marked += usize::from(card.mark() != Mark::NONE);
    let (number, edition) = (card.number().to_string(), card.edition().to_string());
    match card.edition() {
        0 => row(&number, "original", "", &state, "not written yet"),
        _ => row(
            &number,
            "original",
            &edition,
            &state,
            &fitted(card.original(), counts),
        ),
    }
}

fn translations(version: Version, card: &Card, counts: &mut Counts) -> String {
    let (mut out, mut missing) = (String::new(), 0);
    for language in version.languages() {
        let from = card.translated_from(*language).unwrap_or(0);
        if from == 0 {
            missing += 1;
            continue;
        }
        let state = match behind(card, *language) {
            None => "current".into(),
            Some(editions) => format!("BEHIND by {editions}"),
        };
        counts.behind += usize::from(state != "current");
        let text = fitted(card.translation(*language).unwrap_or(&[]), counts);
        out += &row(
            "",
            &called(version, *language),
            &from.to_string(),
            &state,
            &text,
        );
    }
    match (version, missing) {
        (_, 0) => out,
        (Version::One, _) => out + &row("", "translation", "", "not made yet", ""),
        (_, all) if all == version.languages().len() => {
            out + &row("", "translations", "", "not made yet", "")
        }
        (Version::Two, _) => out + &row("", "others", "", "not made yet", ""),
    }
}

/// A text in its column; one that is cut short ends with `…` and the bytes of the whole.
fn fitted(bytes: &[u8], counts: &mut Counts) -> String {
    let form = forms::payload(bytes);
    let form = form.strip_prefix("text ").unwrap_or(&form);
    if width(form) <= TEXT {
        return form.into();
    }
    counts.cut += 1;
    let length = format!(" {} bytes", bytes.len());
    cut(form, TEXT - length.len()) + &length
}

fn counted(counts: &Counts) -> String {
    let count = |count: usize, one: &str, more: &str| match count {
        0 => None,
        1 => Some(format!("1 {one}")),
        count => Some(format!("{count} {more}")),
    };
    let parts = [
        count(
            counts.behind,
            "translation is behind",
            "translations are behind",
        ),
        count(counts.marked, "card bears a mark", "cards bear marks"),
        count(
            counts.cut,
            "text is cut short (--card shows it whole)",
            "texts are cut short (--card shows them whole)",
        ),
    ];
    let parts: Vec<String> = parts.into_iter().flatten().collect();
    match parts.is_empty() {
        true => String::new(),
        false => format!("\n{}\n", parts.join(", ")),
    }
}

/// One card with all that stands on it.
fn whole(name: &str, version: Version, card: &Card) -> String {
    let (s, x) = (forms::stamp(card.pair().s), forms::stamp(card.pair().x));
    let mark = match card.mark() {
        Mark::NONE => "none".into(),
        mark => format!("of desk {}, transaction {}", mark.desk, mark.transaction),
    };
    let mut out = format!("card {} of {name}\n", card.number());
    let _ = writeln!(out, "  pair: s {s}, x {x}\n  mark: {mark}");
    match card.edition() {
        0 => out += "  original: not written yet\n",
        edition => {
            let bytes = card.original();
            let length = some(bytes.len() as u64, "byte");
            let _ = writeln!(out, "  original: edition {edition}, {length}");
            out += &indented(bytes);
        }
    }
    for language in version.languages() {
        out += &whole_translation(version, card, *language);
    }
    out
}

fn whole_translation(version: Version, card: &Card, language: Language) -> String {
    let name = called(version, language);
    let from = card.translated_from(language).unwrap_or(0);
    if from == 0 {
        return format!("  {name}: not made yet\n");
    }
    let state = match behind(card, language) {
        None => "current".into(),
        Some(editions) => format!("BEHIND by {editions}, not to be shown"),
    };
    let bytes = card.translation(language).unwrap_or(&[]);
    let length = some(bytes.len() as u64, "byte");
    let line = format!("  {name}: made from edition {from}, {state}, {length}\n");
    line + &indented(bytes)
}

/// A text under its line: whole, a structured one step by step.
fn indented(bytes: &[u8]) -> String {
    let form = match Text::read(bytes) {
        Ok(text) => forms::steps(&text),
        Err(_) => format!("{}\n", forms::payload(bytes)),
    };
    form.lines().map(|line| format!("    {line}\n")).collect()
}
