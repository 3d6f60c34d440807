//! What is drawn into a band.

use std::collections::BTreeSet;

use lupaniele::{DeskId, Mark, Mode, Number};

use super::layout::{
    each, pair_words, Bar, Lane, Layout, Strip, BESIDE, HALF, HEAD, LINE, MARK, QUEUE,
};
use super::legend::Seen;
use super::sign::{Shape, Sign, BELOW, INSIDE};
use super::svg::{width_of, At, Svg};
use crate::scene::{Scene, Translated};

/// Colours of words: plain, quiet, refused.
pub const INK: &str = "#1f2933";
/// See [`INK`].
pub const QUIET: &str = "#5b6470";
/// See [`INK`].
pub const REFUSED: &str = "#b3152a";

/// The frame of a recovery.
pub const RECOVERY: &str = "rx=\"5\" fill=\"#ece4fb\" stroke=\"#5b21b6\" stroke-width=\"1.5\"";

pub(super) const MIDDLE: &str = "text-anchor=\"middle\"";

/// The colour of a card.
pub fn colour(card: u16) -> &'static str {
    ["#2b6cb0", "#a8480f", "#2f7d4f", "#6b46c1"][usize::from(card) % 4]
}

/// A picture as it is drawn, and which signs it has so far.
pub struct Drawing<'a> {
    /// Where everything stands.
    pub layout: &'a Layout<'a>,
    /// What is drawn.
    pub svg: Svg,
    /// What the legend has to say.
    pub seen: BTreeSet<Seen>,
}

impl Drawing<'_> {
    /// A band, but for the names beside it.
    pub fn band(&mut self, band: usize) {
        let layout = self.layout;
        layout.lanes.iter().for_each(|lane| self.ground(lane));
        self.numbers(band);
        for (desk, from, to) in layout.absences() {
            self.absence(band, desk, from, to);
        }
        self.recoveries(band);
        layout.bars.iter().for_each(|bar| self.bar(band, bar));
        self.queues(band);
        layout
            .strips
            .iter()
            .for_each(|strip| self.card(band, strip));
        for column in layout.bands[band].clone() {
            self.scene(column);
        }
    }

    /// A lane's ground, and a line for each of its rows.
    fn ground(&mut self, lane: &Lane) {
        let wide = self.layout.wide;
        let size = (wide, lane.bottom - lane.top);
        self.svg.rect((0, lane.top), size, "fill=\"#f3f5f8\"");
        for (_, y) in &lane.rows {
            self.svg.stroke((0, *y), (wide, *y), "stroke=\"#c9ced6\"");
        }
    }

    /// The numbers of the steps, each with a thin line down to the store.
    fn numbers(&mut self, band: usize) {
        for column in self.layout.bands[band].clone() {
            let x = self.layout.x(column);
            let style = "stroke=\"#dfe3e9\" stroke-dasharray=\"1 3\"";
            self.svg.stroke((x, HEAD - 2), (x, self.layout.high), style);
            let style = format!("{MIDDLE} font-size=\"10\" fill=\"{QUIET}\"");
            self.svg
                .text((x, HEAD - 7), &style, &(column + 1).to_string());
        }
    }

    /// A desk is down.
    fn absence(&mut self, band: usize, desk: u16, from: usize, to: Option<usize>) {
        let part = self.layout.part(band, Some(from), to);
        let Some(((left, right), lane)) = part.zip(self.layout.lane(desk)) else {
            return;
        };
        let size = (right - left, lane.bottom - lane.top);
        self.svg.rect((left, lane.top), size, "fill=\"url(#down)\"");
    }

    /// A frame around each recovery and what it wrote.
    fn recoveries(&mut self, band: usize) {
        for column in self.layout.bands[band].clone() {
            let Scene::Recovered { desk, .. } = self.layout.scenes[column] else {
                continue;
            };
            let Some(lane) = self.layout.lane(desk.desk) else {
                continue;
            };
            let (left, right) = self.layout.sides(column);
            let size = (right - left - 4, lane.bottom - lane.top - 4);
            self.svg.rect((left + 2, lane.top + 2), size, RECOVERY);
            self.seen.insert(Seen::Recovery);
        }
    }

    /// A session's bar, and where it begins its pair.
    fn bar(&mut self, band: usize, bar: &Bar) {
        let session = &bar.session;
        let row = super::sign::Row::Card(session.desk.desk, session.card);
        let part = self.layout.part(band, Some(bar.from), Some(bar.to));
        let Some(((left, right), y)) = part.zip(self.layout.y(row)) else {
            return;
        };
        let columns = &self.layout.bands[band];
        let left = if columns.contains(&bar.from) {
            left - 15
        } else {
            -1
        };
        let right = if columns.contains(&bar.to) {
            right + 15
        } else {
            right + 1
        };
        let style = frame(session.mode, colour(session.card), true);
        let size = (right - left, 2 * HALF + 6);
        self.svg.rect((left, y - HALF - 3), size, &style);
        let told = self.layout.roomy;
        self.seen.insert(Seen::Session(session.mode, told));
        if self.layout.roomy && columns.contains(&bar.from) {
            let x = self.layout.x(bar.from);
            let style = format!(
                "{MIDDLE} font-size=\"10\" fill=\"{}\"",
                colour(session.card)
            );
            let [s, x_words] = pair_words(session);
            self.svg.text((x, y - HALF - 18), &style, &s);
            self.svg.text((x, y - HALF - 7), &style, &x_words);
        }
    }

    /// Who stands in each queue.
    fn queues(&mut self, band: usize) {
        let layout = self.layout;
        for (card, y) in &layout.queues {
            let style = "fill=\"#fff\" stroke=\"#c9ced6\"";
            self.svg.rect((0, *y), (layout.wide, QUEUE), style);
            for (left, right, queue) in layout.segments(band, &layout.waiting[card]) {
                self.waiting((left, *y), right - left, queue);
            }
        }
    }

    fn waiting(&mut self, (left, y): At, wide: i32, queue: &[(Mode, DeskId)]) {
        if left > 0 {
            self.svg
                .stroke((left, y), (left, y + QUEUE), "stroke=\"#c9ced6\"");
        }
        let (mut x, right) = (left + 4, left + wide);
        for (at, (mode, desk)) in queue.iter().enumerate() {
            let words = desk.desk.to_string();
            let token = width_of(&words, 10) + 10;
            let more = format!("+{}", queue.len() - at);
            let rest = if at + 1 < queue.len() { 18 } else { 0 };
            if x + token + rest > right {
                let style = format!("font-size=\"9\" fill=\"{QUIET}\"");
                let more = if x + 14 > right { "" } else { &more };
                self.svg.text((x, y + 14), &style, more);
                return;
            }
            self.svg
                .rect((x, y + 3), (token, 14), &frame(*mode, INK, false));
            let style = format!("{MIDDLE} font-size=\"10\" fill=\"{INK}\"");
            self.svg.text((x + token / 2, y + 14), &style, &words);
            x += token + 3;
            self.seen.insert(Seen::Waiting(*mode));
        }
    }

    /// A card in the store: its marks, and how each translation stands.
    fn card(&mut self, band: usize, strip: &Strip) {
        let layout = self.layout;
        let since = &layout.standings[&strip.card];
        if let Some(y) = strip.mark {
            for (left, right, mark) in layout.segments(band, &each(since, |now| now.mark)) {
                self.mark((left, y), right - left, *mark);
            }
        }
        for (at, y) in strip.tops.iter().enumerate() {
            // The first strip says the edition, the others of a card stand below it.
            let told = each(since, |now| {
                let edition = (at == 0).then_some(now.edition);
                Some((edition, *now.translations.get(at)?))
            });
            for (left, right, told) in layout.segments(band, &told) {
                let place = ((left, *y), (right - left, strip.high - 2));
                if let Some((edition, translated)) = told {
                    self.translation(place, *edition, *translated);
                }
            }
        }
    }

    fn mark(&mut self, (left, y): At, wide: i32, mark: Mark) {
        if mark == Mark::NONE {
            return;
        }
        let style = format!("fill=\"{INK}\"");
        self.svg.rect((left, y + 1), (wide, MARK - 2), &style);
        let words = format!("mark {mark}");
        let words = if width_of(&words, 10) + 6 < wide {
            words
        } else {
            String::new()
        };
        self.svg
            .text((left + 4, y + 12), "font-size=\"10\" fill=\"#fff\"", &words);
        self.seen.insert(Seen::Marked);
    }

    /// A part of a translation's strip, with as many words as fit.
    fn translation(&mut self, place: (At, At), edition: Option<u16>, translated: Translated) {
        let ((left, y), (wide, high)) = place;
        self.svg.rect((left, y), (wide, high), shade(translated));
        self.seen.insert(Seen::Translated(match translated {
            Translated::Behind(_) => Translated::Behind(1),
            other => other,
        }));
        let fits = |words: &String| width_of(words, 10) + 10 <= wide;
        let words = strip_words(edition, translated);
        let Some(words) = words.into_iter().find(fits) else {
            return;
        };
        if matches!(translated, Translated::Behind(_)) {
            let size = (width_of(&words, 10) + 2, high - 4);
            self.svg
                .rect((left + 3, y + 2), size, "rx=\"2\" fill=\"#fffaf0\"");
        }
        let style = format!("font-size=\"10\" fill=\"{INK}\"");
        self.svg.text((left + 5, y + high / 2 + 4), &style, &words);
    }

    /// The signs of a column, in each row side by side.
    fn scene(&mut self, column: usize) {
        let layout = self.layout;
        let signs = &layout.signs[column];
        self.svg.open(&layout.scenes[column].to_string());
        for (at, sign) in signs.iter().enumerate() {
            let Some(y) = layout.y(sign.row) else {
                continue;
            };
            let beside = |signs: &[Sign]| -> i32 {
                let same = signs.iter().filter(|other| other.row == sign.row);
                same.map(|other| other.wide() + BESIDE).sum()
            };
            let left = layout.x(column) - beside(signs) / 2 + beside(&signs[..at]);
            self.sign((left + (sign.wide() + BESIDE) / 2, y), sign);
        }
        self.svg.close();
    }

    fn sign(&mut self, (x, y): At, sign: &Sign) {
        let ink = if sign.refused.is_some() { REFUSED } else { INK };
        match &sign.shape {
            Shape::Done {
                letter,
                card,
                write,
            } => {
                done(&mut self.svg, (x, y), (letter, *write), colour(*card));
                self.seen.insert(Seen::Letter(letter.clone()));
            }
            Shape::Refused { number, letter } => {
                refused(&mut self.svg, (x, y), *number);
                self.seen.extend(letter.clone().map(Seen::Letter));
            }
            Shape::Pill { words, mode } => self.pill((x, y), words, *mode, ink),
            Shape::Struck { words } => {
                self.pill((x, y), words, None, ink);
                struck(&mut self.svg, (x, y), width_of(words, INSIDE) / 2 + 8);
            }
            Shape::Flash => self.flash(x, sign),
        }
        self.seen.extend(sign.refused.map(|number| match number {
            Number::AppendCut => Seen::Struck,
            number => Seen::Refused(number),
        }));
        let style = format!("{MIDDLE} font-size=\"{BELOW}\" fill=\"{ink}\"");
        for (at, line) in (0..).zip(&sign.below) {
            let below = y + HALF + 14 + LINE * at;
            self.svg.text((x, below), &style, line);
        }
    }

    /// Words in a frame.
    fn pill(&mut self, (x, y): At, words: &str, mode: Option<Mode>, ink: &str) {
        let style = match mode {
            Some(mode) => frame(mode, ink, false),
            None => format!("rx=\"3\" fill=\"#fff\" stroke=\"{ink}\""),
        };
        let wide = width_of(words, INSIDE) + 12;
        self.svg.rect((x - wide / 2, y - 9), (wide, 18), &style);
        let style = format!("{MIDDLE} font-size=\"{INSIDE}\" fill=\"{ink}\"");
        self.svg.text((x, y + 4), &style, words);
        self.seen.extend(mode.map(Seen::Asked));
    }

    /// The power is cut: a flash through the lane.
    fn flash(&mut self, x: i32, sign: &Sign) {
        let super::sign::Row::Desk(desk) = sign.row else {
            return;
        };
        if let Some(lane) = self.layout.lane(desk) {
            flash(&mut self.svg, (x, lane.top), lane.bottom - lane.top);
            self.seen.insert(Seen::Flash);
        }
    }
}

/// How a translation's strip looks: white without a text, green while it is current, hatched while it is behind.
pub fn shade(translated: Translated) -> &'static str {
    match translated {
        Translated::Nothing => "fill=\"#fff\" stroke=\"#aab1bb\"",
        Translated::Not => "fill=\"#f3e3bd\" stroke=\"#9a6b00\"",
        Translated::Behind(_) => "fill=\"url(#behind)\" stroke=\"#9a6b00\"",
        Translated::Current => "fill=\"#c4e8cd\" stroke=\"#2f7d4f\"",
    }
}

/// The words of a part of a strip, the longest first.
fn strip_words(edition: Option<u16>, translated: Translated) -> Vec<String> {
    let told = translated.to_string();
    let short = match translated {
        Translated::Nothing => return Vec::new(),
        Translated::Behind(_) => "behind".into(),
        _ => told.clone(),
    };
    match edition {
        Some(edition) => vec![
            format!("edition {edition}, {told}"),
            format!("{edition} {short}"),
            edition.to_string(),
        ],
        None => vec![told, short],
    }
}

/// A stroke through what was cut.
pub fn struck(svg: &mut Svg, (x, y): At, half: i32) {
    let style = format!("stroke=\"{REFUSED}\" stroke-width=\"2\"");
    svg.stroke((x - half, y + 8), (x + half, y - 8), &style);
}

/// The frame of a mode: square and filled if exclusive, round and dashed if shared.
pub fn frame(mode: Mode, ink: &str, filled: bool) -> String {
    let fill = match (mode, filled) {
        (Mode::Exclusive, true) => format!("fill=\"{ink}\" fill-opacity=\"0.22\""),
        _ => "fill=\"#fff\"".into(),
    };
    match mode {
        Mode::Shared => {
            format!(
                "rx=\"9\" {fill} stroke=\"{ink}\" stroke-width=\"1.3\" stroke-dasharray=\"4 2\""
            )
        }
        Mode::Exclusive => format!("rx=\"2\" {fill} stroke=\"{ink}\" stroke-width=\"1.8\""),
    }
}

/// An accepted command: its letter, white on its card's colour; a write has corners, a read is round.
pub fn done(svg: &mut Svg, (x, y): At, (letter, write): (&str, bool), ink: &str) {
    let round = if write { 2 } else { HALF };
    let wide = width_of(letter, 11).max(10) + 10;
    let style = format!("rx=\"{round}\" fill=\"{ink}\"");
    svg.rect((x - wide / 2, y - HALF), (wide, 2 * HALF), &style);
    let style = format!("{MIDDLE} font-size=\"11\" fill=\"#fff\" font-weight=\"bold\"");
    svg.text((x, y + 4), &style, letter);
}

/// A refused command: its number, red.
pub fn refused(svg: &mut Svg, (x, y): At, number: Number) {
    let style = format!("rx=\"2\" fill=\"#fff\" stroke=\"{REFUSED}\" stroke-width=\"2\"");
    svg.rect((x - 11, y - HALF), (22, 2 * HALF), &style);
    let style = format!("{MIDDLE} font-size=\"11\" fill=\"{REFUSED}\" font-weight=\"bold\"");
    svg.text((x, y + 4), &style, &u8::from(number).to_string());
}

/// A flash of this height.
pub fn flash(svg: &mut Svg, (x, top): At, high: i32) {
    let (half, bottom) = (top + high / 2, top + high);
    let (bend, wide) = if high > 30 { (3, 3) } else { (1, 2) };
    let (right, left) = (half - bend, half + bend);
    let path = format!(
        "M{} {top} L{} {left} L{} {right} L{} {bottom}",
        x + 5,
        x - 6,
        x + 6,
        x - 5
    );
    let style = format!("fill=\"none\" stroke=\"{REFUSED}\" stroke-width=\"{wide}\"");
    svg.path(&path, &style);
}
