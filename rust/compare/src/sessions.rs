//! Lists of commands as desks send them: each desk opens sessions with a new
//! stamp, and several open sessions send in turn. Now and then one breaks the
//! way that pairs are proposed.

use second::generate;
use second::random::Random;
use second::stamp::stamp;
use second::{CommandFields, Entry, Format, Layout, Mark, Pair};

/// A session: a card, a mode and a pair.
#[derive(Clone, Copy, Debug, Default)]
pub struct Open {
    /// The card.
    pub card: u16,
    /// 1 shared, 2 exclusive.
    pub mode: u8,
    /// The pair.
    pub pair: Pair,
}

/// The desks of a store, their clock and the sessions that they opened.
pub struct Desks {
    format: Format,
    time: u32,
    open: Vec<Open>,
    strict: bool,
}

impl Desks {
    /// Desks that have sent nothing. Strict ones propose pairs only as the
    /// papers have it, so that the premise of demand 3 holds.
    pub fn new(format: Format, strict: bool) -> Desks {
        Desks {
            format,
            time: 1,
            open: Vec::new(),
            strict,
        }
    }

    /// The store is converted to version 2; the open sessions go on.
    pub fn converted(&mut self) {
        self.format = Format::V2;
    }

    /// The next command, for a card of this image.
    pub fn command(&mut self, random: &mut Random, image: &[u8]) -> Vec<u8> {
        let format = self.format;
        if !self.strict && random.one_in(12) {
            return generate::command(format, random, image);
        }
        if self.open.is_empty() || random.one_in(5) {
            self.begin(random, image);
        }
        let recent = self.open.len().saturating_sub(4);
        let session = match random.one_in(8) {
            true => random.pick(&self.open),
            false => random.pick(&self.open[recent..]),
        };
        sent(format, random, image, session)
    }

    /// A desk opens a session under a new stamp: shared with the largest
    /// exclusive stamp, exclusive with the largest shared one or its own.
    fn begin(&mut self, random: &mut Random, image: &[u8]) {
        let format = self.format;
        let cards = Layout::of_header(format, image).map_or(1, Layout::cards);
        let card = random.index(cards) as u16;
        let stored = stored(format, image, card).pair;
        self.time += 1;
        let own = stamp(self.time, random.between(1, 3) as u16, 0);
        let mode = random.pick(&[1, 1, 2]);
        let mut pair = match mode {
            1 => Pair::new(own, stored.x),
            _ => Pair::new(random.pick(&[own, stored.s.min(own)]), own),
        };
        if !self.strict && random.one_in(6) {
            pair.s = stamp(random.below(self.time.into()) as u32, 2, 0);
        }
        self.open.push(Open { card, mode, pair });
    }
}

/// A command of a desk whose clock jumps: its own stamp, and now and then the
/// other one, is as old as the stored one, a little newer, or near the limit
/// above it.
pub fn jumping(format: Format, random: &mut Random, image: &[u8]) -> Vec<u8> {
    let cards = Layout::of_header(format, image).map_or(1, Layout::cards);
    let card = random.index(cards) as u16;
    let mode = random.pick(&[1, 1, 2]);
    let mut pair = stored(format, image, card).pair;
    let limit = random.pick(&generate::NEAR_LIMIT);
    let more = random.pick(&[0, 0, 1, 1, 2, limit]);
    let (own, other) = match mode {
        1 => (&mut pair.s, &mut pair.x),
        _ => (&mut pair.x, &mut pair.s),
    };
    *own = generate::ahead(random, *own, more);
    if random.one_in(8) {
        *other = generate::ahead(random, *other, limit);
    }
    sent(format, random, image, Open { card, mode, pair })
}

fn stored(format: Format, image: &[u8], card: u16) -> Entry {
    let entry = Layout::of_header(format, image).and_then(|layout| layout.entry(image, card));
    entry.unwrap_or_default()
}

/// A command of a session: under its pair alone, or with that as its update
/// pair and a verifier before it.
pub fn sent(format: Format, random: &mut Random, image: &[u8], session: Open) -> Vec<u8> {
    let stored = stored(format, image, session.card).pair;
    let mut before = |stored: u64, new: u64| {
        let older = stored.min(new);
        random.pick(&[new, older, older, 0])
    };
    let verifier = Pair::new(
        before(stored.s, session.pair.s),
        before(stored.x, session.pair.x),
    );
    let verifier = random.one_in(2).then_some(verifier);
    sent_by(format, random, image, session, verifier)
}

/// A command of a session with this verifier; if there is none, under its pair
/// alone.
pub fn sent_by(
    format: Format,
    random: &mut Random,
    image: &[u8],
    session: Open,
    verifier: Option<Pair>,
) -> Vec<u8> {
    let stored = stored(format, image, session.card);
    let act = match session.mode {
        1 => random.pick(&[1, 2, 2, 5]),
        _ => random.pick(&[1, 2, 3, 3, 4, 4, 5]),
    };
    let marks = [
        Mark::default(),
        Mark::new(1, 7),
        Mark::new(1, 6),
        Mark::new(0x8001, 0x8000_0007),
    ];
    let language = match (format, act) {
        (Format::V2, 2 | 4) => random.below(4) as u8,
        _ => 0,
    };
    let fields = CommandFields {
        format,
        language,
        act,
        mode: session.mode,
        card: session.card,
        pair: verifier.unwrap_or(session.pair),
        update: verifier.map_or(Pair::default(), |_| session.pair),
        expected: match random.one_in(10) {
            true => random.pick(&marks),
            false => stored.mark,
        },
        next: random.pick(&marks),
        edition: match act {
            4 => stored.edition.max(1),
            _ => 0,
        },
        ..CommandFields::default()
    };
    match act {
        3 | 4 => {
            let length = random.pick(&[0, 1, 3, 16, 17]);
            fields.with_payload(&random.bytes(length))
        }
        _ => fields.with_payload(&[]),
    }
}
