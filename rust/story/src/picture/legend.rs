//! What the signs of a picture mean: those that it has, and no others.

use std::collections::BTreeSet;

use lupaniele::{Mode, Number};

use super::draw::{done, flash, frame, refused, shade, struck, INK, MIDDLE, RECOVERY, REFUSED};
use super::svg::{width_of, At, Svg};
use crate::scene::Translated;

/// A sign that the legend speaks of, in its order.
#[derive(Clone, Debug, PartialEq, Eq, PartialOrd, Ord)]
pub enum Seen {
    /// A command by its letter.
    Letter(String),
    /// A session's bar, and whether its pair stands above it.
    Session(Mode, bool),
    /// A request to a queue.
    Asked(Mode),
    /// Who stands in a queue.
    Waiting(Mode),
    /// A refusal.
    Refused(Number),
    /// How a translation stands.
    Translated(Translated),
    /// A commit mark.
    Marked,
    /// A record that was cut.
    Struck,
    /// A power cut.
    Flash,
    /// A recovery.
    Recovery,
}

/// The height of a line of the legend.
const HIGH: i32 = 25;
/// The room of a sign in it.
const SIGN: i32 = 40;

impl Seen {
    fn words(&self) -> String {
        match self {
            Seen::Letter(letter) => letter_words(letter),
            Seen::Session(mode, true) => format!("{mode} session, above it its pair"),
            Seen::Session(mode, false) => format!("{mode} session"),
            Seen::Asked(mode) => format!("asks {mode} in the card's queue"),
            Seen::Waiting(mode) => format!("stands there {mode}, the first in front"),
            Seen::Refused(number) => format!("refused: {number}"),
            Seen::Translated(translated) => translated_words(*translated).into(),
            Seen::Marked => "commit mark (desk, transaction)".into(),
            Seen::Struck => "append cut at that store".into(),
            Seen::Flash => "power cut; hatched until the next start".into(),
            Seen::Recovery => "recovery, and what it wrote".into(),
        }
    }

    /// The sign, in the middle of its room.
    fn sign(&self, svg: &mut Svg, (x, y): At) {
        let part = (x - 14, y - 7);
        let strip = |svg: &mut Svg, style: &str| svg.rect(part, (28, 14), style);
        match self {
            Seen::Letter(letter) => {
                let write = letter.starts_with(['O', 'T']);
                done(svg, (x, y), (letter, write), "#47525f");
            }
            Seen::Session(mode, _) => strip(svg, &frame(*mode, "#47525f", true)),
            Seen::Asked(mode) => framed(svg, (x, y), *mode, "asks"),
            Seen::Waiting(mode) => framed(svg, (x, y), *mode, "1"),
            Seen::Refused(number) => refused(svg, (x, y), *number),
            Seen::Translated(translated) => strip(svg, shade(*translated)),
            Seen::Marked => strip(svg, &format!("fill=\"{INK}\"")),
            Seen::Struck => {
                strip(svg, &format!("rx=\"3\" fill=\"#fff\" stroke=\"{REFUSED}\""));
                struck(svg, (x, y), 15);
            }
            Seen::Flash => {
                svg.rect((x, y - 8), (14, 16), "fill=\"url(#down)\"");
                flash(svg, (x, y - 8), 16);
            }
            Seen::Recovery => strip(svg, RECOVERY),
        }
    }
}

fn translated_words(translated: Translated) -> &'static str {
    match translated {
        Translated::Nothing => "no text yet",
        Translated::Not => "not translated: reads get 6",
        Translated::Behind(_) => "translation behind: reads get 6",
        Translated::Current => "translation current",
    }
}

fn framed(svg: &mut Svg, (x, y): At, mode: Mode, words: &str) {
    let wide = width_of(words, 10) + 8;
    svg.rect((x - wide / 2, y - 8), (wide, 16), &frame(mode, INK, false));
    let style = format!("{MIDDLE} font-size=\"10\" fill=\"{INK}\"");
    svg.text((x, y + 4), &style, words);
}

/// What a letter says: small reads, large writes; a language behind it.
fn letter_words(letter: &str) -> String {
    let does = if letter.starts_with(['O', 'T']) {
        "writes"
    } else {
        "reads"
    };
    let (first, language) = letter.split_at(1.min(letter.len()));
    match (first, language) {
        ("v", _) => "verifies".into(),
        ("o" | "O", _) => format!("{does} the original"),
        (_, "") => format!("{does} the translation"),
        (_, language) => format!("{does} language {language}"),
    }
}

/// The places of the legend's entries in so much width, and its height.
fn placed(entries: &[String], wide: i32) -> (Vec<At>, i32) {
    let (mut x, mut y) = (0, 0);
    let mut places = Vec::new();
    for words in entries {
        let needed = SIGN + width_of(words, 11) + 10;
        if x > 0 && x + needed > wide {
            (x, y) = (0, y + HIGH);
        }
        places.push((x, y));
        x += needed;
    }
    (places, if entries.is_empty() { 0 } else { y + HIGH })
}

/// How high the legend is.
pub fn height(seen: &BTreeSet<Seen>, wide: i32) -> i32 {
    let words: Vec<String> = seen.iter().map(Seen::words).collect();
    placed(&words, wide).1
}

/// The legend.
pub fn draw(svg: &mut Svg, seen: &BTreeSet<Seen>, (left, top): At, wide: i32) {
    let words: Vec<String> = seen.iter().map(Seen::words).collect();
    let (places, _) = placed(&words, wide);
    for ((entry, words), (x, y)) in seen.iter().zip(&words).zip(places) {
        let middle = top + y + HIGH / 2;
        entry.sign(svg, (left + x + SIGN / 2 - 2, middle));
        let style = format!("font-size=\"11\" fill=\"{INK}\"");
        svg.text((left + x + SIGN, middle + 4), &style, words);
    }
}
