//! A picture of what happened, as SVG: desks are lanes, time goes to the right and down in bands, a column is a step.
//! Sessions are bars with their commands on them; below stand the queues, and the store's cards with their editions,
//! hatched where a translation is behind. In a browser each sign tells its step when the mouse rests on it.

mod draw;
mod label;
mod layout;
mod legend;
mod sign;
mod svg;

use std::collections::{BTreeMap, BTreeSet};

use draw::{colour, Drawing, INK, QUIET};
use layout::Layout;
use sign::Row;
use svg::{safe, width_of, Svg};

use crate::scene::{Scene, Standing};

/// What is to be drawn.
#[derive(Clone, Copy, Debug)]
pub struct Picture<'a> {
    /// The title.
    pub title: &'a str,
    /// The names of desks.
    pub names: &'a BTreeMap<u16, String>,
    /// How the cards stand at the beginning, by number.
    pub opening: &'a [Standing],
    /// What happens.
    pub scenes: &'a [Scene],
}

/// The margin around everything.
const MARGIN: i32 = 12;
/// The height of the title.
const TITLE: i32 = 34;
/// The signs of a name at most.
const NAME: usize = 16;

/// Hatchings: a translation that is behind, and a desk that is down.
const PATTERNS: &str = "<defs>\
<pattern id=\"behind\" width=\"7\" height=\"7\" patternUnits=\"userSpaceOnUse\" patternTransform=\"rotate(45)\">\
<rect width=\"7\" height=\"7\" fill=\"#fff3d6\"/><line x1=\"0\" y1=\"0\" x2=\"0\" y2=\"7\" stroke=\"#d9a127\" stroke-width=\"4\"/></pattern>\
<pattern id=\"down\" width=\"6\" height=\"6\" patternUnits=\"userSpaceOnUse\" patternTransform=\"rotate(-45)\">\
<rect width=\"6\" height=\"6\" fill=\"#fff\"/><line x1=\"0\" y1=\"0\" x2=\"0\" y2=\"6\" stroke=\"#aab1bb\" stroke-width=\"2\"/></pattern></defs>";

/// The names beside a band: of each lane the desk and what its rows are, below the queues and the cards.
struct Names {
    /// A word, its place from the band's left upper corner, and its style.
    words: Vec<(String, i32, String)>,
    rows: Vec<(String, i32, String)>,
    wide: i32,
}

fn bold(ink: &str) -> String {
    format!("font-size=\"12\" font-weight=\"bold\" fill=\"{ink}\"")
}

fn plain(ink: &str) -> String {
    format!("font-size=\"11\" fill=\"{ink}\"")
}

fn shortened(name: &str) -> String {
    match name.chars().count() {
        0..=NAME => name.into(),
        _ => name.chars().take(NAME - 1).chain(['\u{2026}']).collect(),
    }
}

impl Names {
    fn new(picture: &Picture, layout: &Layout) -> Names {
        let mut names = Names {
            words: Vec::new(),
            rows: Vec::new(),
            wide: 0,
        };
        names.of_lanes(picture, layout);
        names.of_the_rest(layout);
        let widest = |words: &[(String, i32, String)]| {
            let wide = words.iter().map(|(words, _, _)| width_of(words, 12));
            wide.max().unwrap_or(0)
        };
        names.wide = widest(&names.words) + widest(&names.rows) + 18;
        names
    }

    /// Of each lane the desk and its name, and of each row its card.
    fn of_lanes(&mut self, picture: &Picture, layout: &Layout) {
        for lane in &layout.lanes {
            let desk = match lane.desk {
                0 => "no desk".into(),
                desk => format!("desk {desk}"),
            };
            self.words.push((desk, lane.top + 16, bold(INK)));
            if let Some(name) = picture.names.get(&lane.desk) {
                self.words
                    .push((shortened(name), lane.top + 30, plain(QUIET)));
            }
            for (row, y) in &lane.rows {
                let (name, ink) = match row {
                    Row::Card(_, card) => (format!("card {card}"), colour(*card)),
                    Row::Log(_) => ("log".into(), QUIET),
                    _ => continue,
                };
                self.rows.push((name, y + 4, plain(ink)));
            }
        }
    }

    /// Of the queues, of conversions, and of the cards in the store.
    fn of_the_rest(&mut self, layout: &Layout) {
        for (card, y) in &layout.queues {
            let name = format!("card {card}");
            self.words.push((name, y + 14, bold(colour(*card))));
            self.rows.push(("queue".into(), y + 14, plain(QUIET)));
        }
        if let Some(y) = layout.store {
            self.words.push(("store".into(), y + 4, bold(INK)));
        }
        for strip in &layout.strips {
            let top = strip.tops.first().copied().unwrap_or(0);
            let name = format!("card {}", strip.card);
            self.words.push((name, top + 14, bold(colour(strip.card))));
            let several = strip.tops.len() > 1;
            for (language, top) in strip.tops.iter().enumerate().filter(|_| several) {
                let name = format!("lang. {language}");
                self.rows.push((name, top + 12, plain(QUIET)));
            }
            if !several {
                self.rows.push(("in store".into(), top + 14, plain(QUIET)));
            }
        }
    }

    fn draw(&self, svg: &mut Svg, top: i32) {
        for (words, y, style) in &self.words {
            svg.text((MARGIN, top + y), style, words);
        }
        let right = MARGIN + self.wide - 8;
        for (words, y, style) in &self.rows {
            let style = format!("text-anchor=\"end\" {style}");
            svg.text((right, top + y), &style, words);
        }
    }
}

/// A title of at most this width.
fn fitting(title: &str, wide: i32) -> String {
    let mut fits = title.to_string();
    while width_of(&fits, 15) > wide && fits.chars().count() > 2 {
        fits = fits
            .chars()
            .take(fits.chars().count() - 2)
            .chain(['\u{2026}'])
            .collect();
    }
    fits
}

/// The picture.
pub fn draw(picture: &Picture) -> String {
    let layout = Layout::new(picture);
    let names = Names::new(picture, &layout);
    let left = MARGIN + names.wide;
    let mut drawing = Drawing {
        layout: &layout,
        svg: Svg::default(),
        seen: BTreeSet::new(),
    };
    let mut top = TITLE;
    for band in 0..layout.bands.len() {
        names.draw(&mut drawing.svg, top);
        drawing.svg.open_at((left, top));
        drawing.band(band);
        drawing.svg.close();
        top += layout.high + MARGIN;
    }
    let width = left + layout.wide + MARGIN;
    let inner = width - 2 * MARGIN;
    legend::draw(&mut drawing.svg, &drawing.seen, (MARGIN, top), inner);
    top += legend::height(&drawing.seen, inner) + MARGIN;
    framed(picture.title, (width, top), &drawing.svg)
}

/// A whole picture of this size, with its title.
fn framed(title: &str, (width, height): (i32, i32), drawn: &Svg) -> String {
    let mut out = Svg::default();
    out.line(&format!(
        "<svg xmlns=\"http://www.w3.org/2000/svg\" width=\"{width}\" height=\"{height}\" viewBox=\"0 0 {width} {height}\" \
         role=\"img\" style=\"max-width:100%;height:auto\" font-family=\"Helvetica, Arial, 'Liberation Sans', 'DejaVu Sans', sans-serif\">"
    ));
    out.line(&format!("<title>{}</title>", safe(title)));
    out.line(PATTERNS);
    out.rect((0, 0), (width, height), "fill=\"#fff\"");
    let style = format!("font-size=\"15\" font-weight=\"bold\" fill=\"{INK}\"");
    let title = fitting(title, width - 2 * MARGIN);
    out.text((MARGIN, 23), &style, &title);
    out.0.push_str(&drawn.0);
    out.line("</svg>");
    out.0
}
