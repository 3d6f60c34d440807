//! Where everything stands: columns are steps, in bands one below the other; rows are what desks do with cards and with
//! their logs; below them stand the queues and the store's cards.

use std::collections::{BTreeMap, BTreeSet};
use std::ops::Range;

use lupaniele::Number;

use super::sign::{signs, Room, Row, Sign};
use super::svg::width_of;
use super::Picture;
use crate::scene::{Scene, Session, Standing, Waiting};

/// Above how many columns a picture is drawn small.
const ROOMY: usize = 60;
/// The least width of the columns together.
const LEAST: i32 = 560;
/// The height of the line with the numbers of the steps.
pub const HEAD: i32 = 20;
/// Half the height of a sign.
pub const HALF: i32 = 10;
/// The height of a line of words below a sign.
pub const LINE: i32 = 12;
/// The room between two signs.
pub const BESIDE: i32 = 12;
/// The height of the words above a bar.
const ABOVE: i32 = 30;
/// The height of a queue's strip, of a mark's, and of a card's with one translation and with several.
pub const QUEUE: i32 = 20;
/// See [`QUEUE`].
pub const MARK: i32 = 16;
const STRIP: i32 = 22;
const THIN: i32 = 18;
const GAP: i32 = 8;

/// A column: a step.
#[derive(Clone, Copy, Debug)]
struct Column {
    left: i32,
    wide: i32,
}

/// A session's bar, from its first accepted command to its last.
#[derive(Clone, Copy, Debug)]
pub struct Bar {
    /// The session.
    pub session: Session,
    /// The column of its first command.
    pub from: usize,
    /// And of its last.
    pub to: usize,
}

/// The lane of a desk.
#[derive(Clone, Debug)]
pub struct Lane {
    /// The desk.
    pub desk: u16,
    /// Where it begins.
    pub top: i32,
    /// Where it ends.
    pub bottom: i32,
    /// The middle of each row.
    pub rows: Vec<(Row, i32)>,
}

/// A card in the store.
#[derive(Clone, Debug)]
pub struct Strip {
    /// The card.
    pub card: u16,
    /// Where its marks stand, if it has any.
    pub mark: Option<i32>,
    /// Where each of its translations stands.
    pub tops: Vec<i32>,
    /// How high those are.
    pub high: i32,
}

/// How something stands from a column on; from none, at the beginning.
pub type Since<T> = Vec<(Option<usize>, T)>;

/// How a part of something stands, without the columns in which that does not change.
pub fn each<T, U: PartialEq>(since: &Since<T>, part: impl Fn(&T) -> U) -> Since<U> {
    let mut parts: Since<U> = since.iter().map(|(at, now)| (*at, part(now))).collect();
    parts.dedup_by(|(_, now), (_, before)| now == before);
    parts
}

/// Where everything stands.
#[derive(Debug, Default)]
pub struct Layout<'a> {
    columns: Vec<Column>,
    /// The scene of each column.
    pub scenes: Vec<&'a Scene>,
    /// The columns of each band.
    pub bands: Vec<Range<usize>>,
    /// The signs of each column.
    pub signs: Vec<Vec<Sign>>,
    /// The bars.
    pub bars: Vec<Bar>,
    /// The lanes.
    pub lanes: Vec<Lane>,
    /// Where each queue stands.
    pub queues: BTreeMap<u16, i32>,
    /// Where conversions stand, if there is one.
    pub store: Option<i32>,
    /// The cards.
    pub strips: Vec<Strip>,
    /// How each card stands.
    pub standings: BTreeMap<u16, Since<Standing>>,
    /// Who stands in each queue.
    pub waiting: BTreeMap<u16, Since<Waiting>>,
    /// The width of a band's columns together.
    pub wide: i32,
    /// The height of a band.
    pub high: i32,
    /// Whether there is room for the pairs of sessions.
    pub roomy: bool,
}

/// The bars of all sessions, by their first command.
fn bars(scenes: &[&Scene]) -> Vec<Bar> {
    let mut bars: Vec<Bar> = Vec::new();
    for (at, scene) in scenes.iter().enumerate() {
        let Scene::Judged(judged) = scene else {
            continue;
        };
        let accepted = judged.answer.number == Number::Accepted;
        let Some(session) = judged.session().filter(|_| accepted) else {
            continue;
        };
        match bars.iter_mut().find(|bar| bar.session == session) {
            Some(bar) => bar.to = at,
            None => bars.push(Bar {
                session,
                from: at,
                to: at,
            }),
        }
    }
    bars
}

/// The words above a bar: its pair.
pub fn pair_words(session: &Session) -> [String; 2] {
    let stamp = forms::stamp;
    [
        format!("s {}", stamp(session.pair.s)),
        format!("x {}", stamp(session.pair.x)),
    ]
}

/// How the cards stand in the course of the scenes: those that one of them is about, and at a conversion all that are
/// not fresh.
fn standings(opening: &[Standing], scenes: &[&Scene]) -> BTreeMap<u16, Since<Standing>> {
    let mut all: BTreeMap<u16, Since<Standing>> = BTreeMap::new();
    let numbered = || (0..).zip(opening);
    let converts = |scene: &&Scene| matches!(scene, Scene::Converted { .. });
    if scenes.iter().any(converts) {
        let written = numbered().filter(|(_, card)| card.edition > 0);
        all.extend(written.map(|(card, now)| (card, vec![(None, now.clone())])));
    }
    let mut note = |at: usize, card: u16, now: &Standing| {
        let opened = || opening.get(usize::from(card)).unwrap_or(now).clone();
        let since = all.entry(card).or_insert_with(|| vec![(None, opened())]);
        if since.last().map(|(_, last)| last) != Some(now) {
            since.push((Some(at), now.clone()));
        }
    };
    for (at, scene) in scenes.iter().enumerate() {
        match scene {
            Scene::Judged(judged) => {
                let card = judged.command().map(|command| command.card);
                if let Some((card, now)) = card.zip(judged.after.as_ref()) {
                    note(at, card, now);
                }
            }
            Scene::Recovered { changes, .. } => {
                let changes = changes.iter();
                changes.for_each(|change| note(at, change.card, &change.after));
            }
            Scene::Converted { after, .. } => {
                let written = (0..).zip(after).filter(|(_, card)| card.edition > 0);
                written.for_each(|(card, now)| note(at, card, now));
            }
            _ => {}
        }
    }
    all
}

/// Who stands in each queue in the course of the scenes.
fn waiting(scenes: &[&Scene]) -> BTreeMap<u16, Since<Waiting>> {
    let mut all: BTreeMap<u16, Since<Waiting>> = BTreeMap::new();
    for (at, scene) in scenes.iter().enumerate() {
        let (card, now) = match scene {
            Scene::Asked { card, queue, .. } | Scene::Left { card, queue, .. } => {
                (card, &queue[..])
            }
            Scene::QueueBegan { card, .. } => (card, &[][..]),
            _ => continue,
        };
        let since = all.entry(*card).or_insert_with(|| vec![(None, Vec::new())]);
        if since.last().is_some_and(|(_, last)| last != now) {
            since.push((Some(at), now.to_vec()));
        }
    }
    all
}

/// How wide each column has to be: its signs, several of one row side by side, and the words of the bars that begin
/// there.
fn widths(signs: &[Vec<Sign>], bars: &[Bar], roomy: bool) -> Vec<i32> {
    let least = if roomy { 44 } else { 26 };
    let of_signs = |signs: &Vec<Sign>| {
        let mut rows: BTreeMap<Row, i32> = BTreeMap::new();
        for sign in signs {
            *rows.entry(sign.row).or_default() += sign.wide() + BESIDE;
        }
        rows.values().copied().max().unwrap_or(0).max(least)
    };
    let mut widths: Vec<i32> = signs.iter().map(of_signs).collect();
    for bar in bars.iter().filter(|_| roomy) {
        let words = pair_words(&bar.session);
        let needed = words.iter().map(|words| width_of(words, 10) + 8).max();
        widths[bar.from] = widths[bar.from].max(needed.unwrap_or(0));
    }
    widths
}

/// Columns of these widths in bands of at most this one.
fn split(widths: &[i32], most: i32) -> Vec<Range<usize>> {
    let mut bands: Vec<Range<usize>> = Vec::new();
    let mut filled = 0;
    for (at, wide) in widths.iter().enumerate() {
        match bands.last_mut() {
            Some(band) if filled + wide <= most => {
                band.end = at + 1;
                filled += wide;
            }
            _ => {
                bands.push(at..at + 1);
                filled = *wide;
            }
        }
    }
    bands
}

/// The bands: as few as there can be, and as even as these few can be.
fn bands(widths: &[i32], most: i32) -> Vec<Range<usize>> {
    let fewest = split(widths, most);
    let even = (LEAST..most).step_by(8).map(|most| split(widths, most));
    { even }
        .find(|bands| bands.len() == fewest.len())
        .unwrap_or(fewest)
}

/// What the rows need: how many lines of words stand below the signs of each, and whether a bar begins there.
#[derive(Default)]
struct Needed {
    rows: BTreeMap<Row, (usize, bool)>,
}

impl Needed {
    fn new(signs: &[Vec<Sign>], bars: &[Bar], roomy: bool) -> Needed {
        let mut needed = Needed::default();
        for sign in signs.iter().flatten() {
            let row = needed.rows.entry(sign.row).or_default();
            row.0 = row.0.max(sign.below.len());
        }
        for bar in bars {
            let row = Row::Card(bar.session.desk.desk, bar.session.card);
            needed.rows.entry(row).or_default().1 |= roomy;
        }
        needed
    }

    /// The rows of a desk's lane, cards first; at least one.
    fn of_desk(&self, desk: u16) -> Vec<(Row, (usize, bool))> {
        let in_lane = |row: &Row| match row {
            Row::Card(of, _) | Row::Log(of) => *of == desk,
            _ => false,
        };
        let rows = self.rows.iter().filter(|(row, _)| in_lane(row));
        let rows: Vec<_> = rows.map(|(row, needs)| (*row, *needs)).collect();
        let own = self.rows.get(&Row::Desk(desk)).copied();
        match rows.is_empty() {
            true => vec![(Row::Desk(desk), own.unwrap_or_default())],
            false => rows,
        }
    }

    fn desks(&self) -> BTreeSet<u16> {
        let desk = |row: &Row| match row {
            Row::Card(desk, _) | Row::Log(desk) | Row::Desk(desk) => Some(*desk),
            Row::Queue(_) | Row::Store => None,
        };
        self.rows.keys().filter_map(desk).collect()
    }
}

impl<'a> Layout<'a> {
    /// Where everything of a picture stands.
    pub fn new(picture: &Picture<'a>) -> Layout<'a> {
        let has_column = |scene: &&Scene| !matches!(scene, Scene::Said(_));
        let scenes: Vec<&Scene> = picture.scenes.iter().filter(has_column).collect();
        let roomy = scenes.len() <= ROOMY;
        let (most, room) = match roomy {
            true => (800, Room { wide: 13, lines: 2 }),
            false => (1_080, Room { wide: 6, lines: 1 }),
        };
        let signs: Vec<Vec<Sign>> = scenes.iter().map(|scene| signs(scene, room)).collect();
        let bars = bars(&scenes);
        let widths = widths(&signs, &bars, roomy);
        let needed = Needed::new(&signs, &bars, roomy);
        let mut layout = Layout {
            bands: bands(&widths, most),
            signs,
            bars,
            standings: standings(picture.opening, &scenes),
            waiting: waiting(&scenes),
            scenes,
            wide: LEAST,
            high: HEAD,
            roomy,
            ..Layout::default()
        };
        layout.place_columns(&widths);
        layout.place_lanes(&needed);
        layout.place_below(&needed);
        layout
    }

    /// Columns side by side; those of each band fill it.
    fn place_columns(&mut self, widths: &[i32]) {
        let filled = |band: &Range<usize>| widths[band.clone()].iter().sum::<i32>();
        let widest = self.bands.iter().map(filled).max();
        self.wide = self.wide.max(widest.unwrap_or(0));
        for band in &self.bands {
            let count = band.len() as i32;
            let spare = self.wide - filled(band);
            let mut left = 0;
            for (place, wide) in (0..).zip(&widths[band.clone()]) {
                let wide = wide + spare * (place + 1) / count - spare * place / count;
                self.columns.push(Column { left, wide });
                left += wide;
            }
        }
    }

    fn place_lanes(&mut self, needed: &Needed) {
        let mut y = self.high;
        for desk in needed.desks() {
            let top = y;
            let mut rows = Vec::new();
            for (row, (lines, bar)) in needed.of_desk(desk) {
                y += if bar { ABOVE } else { 5 };
                rows.push((row, y + HALF));
                y += 2 * HALF + LINE * lines as i32 + 8;
            }
            self.lanes.push(Lane {
                desk,
                top,
                bottom: y,
                rows,
            });
            y += GAP;
        }
        self.high = y;
    }

    /// Below the lanes: the queues, conversions, the cards.
    fn place_below(&mut self, needed: &Needed) {
        let mut y = self.high;
        for card in self.waiting.keys() {
            self.queues.insert(*card, y);
            y += QUEUE + 4;
        }
        if needed.rows.contains_key(&Row::Store) {
            self.store = Some(y + HALF);
            y += 2 * HALF + 4;
        }
        for (card, since) in &self.standings {
            let marked = since
                .iter()
                .any(|(_, now)| now.mark != lupaniele::Mark::NONE);
            let mark = marked.then_some(y);
            y += if marked { MARK } else { 0 };
            let languages = since.iter().map(|(_, now)| now.translations.len()).max();
            let languages = languages.unwrap_or(1).max(1) as i32;
            let high = if languages == 1 { STRIP } else { THIN };
            self.strips.push(Strip {
                card: *card,
                mark,
                tops: (0..languages).map(|language| y + language * high).collect(),
                high,
            });
            y += languages * high + GAP;
        }
        self.high = y;
    }

    /// The middle of a column.
    pub fn x(&self, column: usize) -> i32 {
        let column = self.columns.get(column);
        column.map_or(0, |column| column.left + column.wide / 2)
    }

    /// Left and right end of a column.
    pub fn sides(&self, column: usize) -> (i32, i32) {
        let column = self.columns.get(column);
        column.map_or((0, 0), |column| (column.left, column.left + column.wide))
    }

    /// The lane of a desk.
    pub fn lane(&self, desk: u16) -> Option<&Lane> {
        self.lanes.iter().find(|lane| lane.desk == desk)
    }

    /// The middle of a row.
    pub fn y(&self, row: Row) -> Option<i32> {
        match row {
            Row::Card(desk, _) | Row::Log(desk) => {
                let rows = &self.lane(desk)?.rows;
                let found = rows.iter().find(|(other, _)| *other == row);
                found.map(|(_, y)| *y)
            }
            Row::Desk(desk) => self.lane(desk)?.rows.first().map(|(_, y)| *y),
            Row::Queue(card) => self.queues.get(&card).map(|y| y + QUEUE / 2),
            Row::Store => self.store,
        }
    }

    /// The part of some columns that stands in a band: from where to where; the whole band where they begin before it
    /// or end behind it.
    pub fn part(&self, band: usize, from: Option<usize>, to: Option<usize>) -> Option<(i32, i32)> {
        let columns = self.bands.get(band)?;
        let left = match from {
            Some(from) if from >= columns.end => return None,
            Some(from) if from >= columns.start => self.x(from),
            _ => 0,
        };
        let right = match to {
            Some(to) if to < columns.start => return None,
            Some(to) if to < columns.end => self.x(to),
            _ => self.wide,
        };
        Some((left, right))
    }

    /// How something stands in a band: from where to where, and how.
    pub fn segments<'b, T>(&self, band: usize, since: &'b Since<T>) -> Vec<(i32, i32, &'b T)> {
        let ends = since.iter().skip(1).map(|(at, _)| *at).chain([None]);
        let parts = since.iter().zip(ends).filter_map(|((from, now), to)| {
            let (left, right) = self.part(band, *from, to)?;
            Some((left, right, now))
        });
        parts.collect()
    }

    /// Where desks are down: from the cut to the next start.
    pub fn absences(&self) -> Vec<(u16, usize, Option<usize>)> {
        let mut absences = Vec::new();
        for (at, scene) in self.scenes.iter().enumerate() {
            let Scene::Down { desk } = scene else {
                continue;
            };
            let back = |scene: &&Scene| match scene {
                Scene::Started { desk: new } => new.desk == desk.desk,
                _ => false,
            };
            let later = self.scenes[at..].iter().position(back);
            absences.push((desk.desk, at, later.map(|more| at + more)));
        }
        absences
    }
}
