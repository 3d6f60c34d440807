//! A line of a story: what happens there, read and written.

use forms::{Got, Line};
use lupaniele::{DeskId, Lease, Mode, Pair, Record, Version};

/// What a line of a story says.
#[derive(Clone, Debug, PartialEq)]
pub enum Event {
    /// Words for the reader, from a comment.
    Note(String),
    /// A desk has a name.
    Name {
        /// The desk, whatever its start.
        desk: u16,
        /// Its name.
        name: String,
    },
    /// A command reaches the store, whole or not.
    Command {
        /// The version that its bytes are of.
        version: Version,
        /// Its bytes.
        bytes: Vec<u8>,
    },
    /// A desk asks in a card's queue.
    Ask {
        /// The desk.
        desk: DeskId,
        /// The card.
        card: u16,
        /// The mode.
        mode: Mode,
        /// The pair.
        pair: Pair,
        /// Whether it says that it stands shared and wants to be exclusive; it is then exclusive.
        upgrade: bool,
    },
    /// A desk leaves a card's queue.
    Leave {
        /// The desk.
        desk: DeskId,
        /// The card.
        card: u16,
    },
    /// A desk is taken out of a card's queue, if its lease is over.
    Lapse {
        /// The desk.
        desk: DeskId,
        /// The card.
        card: u16,
        /// The lease and the times.
        lease: Lease,
    },
    /// A card's queue begins empty, with so many places.
    Queue {
        /// The card.
        card: u16,
        /// Its places.
        places: u64,
    },
    /// A desk appends a record to its log; the power may be cut after so many stores.
    Log {
        /// The desk.
        desk: DeskId,
        /// The kind of record.
        kind: u8,
        /// Its body.
        body: Vec<u8>,
        /// Where it is cut.
        cut: Option<u64>,
    },
    /// A desk goes down.
    Down(DeskId),
    /// A desk falls silent.
    Silent(DeskId),
    /// A desk starts.
    Start(DeskId),
    /// A desk recovers, with a pair for each of some cards.
    Recover(DeskId, Vec<(u16, Pair)>),
    /// The store is converted to version 2.
    Convert,
}

impl Event {
    /// Whether something happens: it then has a number.
    pub fn is_step(&self) -> bool {
        !matches!(self, Event::Note(_) | Event::Name { .. })
    }

    /// The event of a line, in a store of this version.
    pub(crate) fn read(line: &mut Line, version: Version) -> Got<Event> {
        if line.takes("desk") {
            let desk = line.desk()?;
            return of_desk(line, desk);
        }
        match () {
            () if line.takes("name") => name(line),
            () if line.takes("queue") => queue(line),
            () if line.takes("store") => {
                line.words("converts to version 2")?;
                Ok(Event::Convert)
            }
            () => Ok(Event::Command {
                version,
                bytes: forms::read_command(line, version)?,
            }),
        }
    }
}

fn name(line: &mut Line) -> Got<Event> {
    line.words("desk")?;
    let desk = number(line, "the desk")?;
    let front = line.clone();
    match String::from_utf8(line.quoted("the desk's name")?) {
        Ok(name) if !name.is_empty() && !name.contains(char::is_control) => {
            Ok(Event::Name { desk, name })
        }
        _ => front.says("a name is some words of text, on one line"),
    }
}

fn number(line: &mut Line, what: &str) -> Got<u16> {
    let number = line.number_of(what, u16::MAX.into())?;
    Ok(number as u16) // within the limit
}

fn card(line: &mut Line) -> Got<u16> {
    line.words("card")?;
    number(line, "the card")
}

fn queue(line: &mut Line) -> Got<Event> {
    line.words("for")?;
    let card = card(line)?;
    line.words("begins with")?;
    let front = line.clone();
    let places = line.number_of("the number of places", u64::MAX)?;
    line.words("places")?;
    match lupaniele::Queue::new(places) {
        Ok(_) => Ok(Event::Queue { card, places }),
        Err(_) => front.wrong("a queue has 1 to 32 places"),
    }
}

/// What a desk does besides sending commands.
fn of_desk(line: &mut Line, desk: DeskId) -> Got<Event> {
    match () {
        () if line.takes("asks") => {
            let mode = mode(line)?;
            ask(line, desk, mode, false)
        }
        () if line.takes("upgrades") => ask(line, desk, Mode::Exclusive, true),
        () if line.takes("leaves") => {
            let card = card(line)?;
            Ok(Event::Leave { desk, card })
        }
        () if line.takes("lapses") => lapse(line, desk),
        () if line.takes("logs") => log(line, desk),
        () if line.takes("recovers") => Ok(Event::Recover(desk, pairs(line)?)),
        () if line.takes("starts") => Ok(Event::Start(desk)),
        () if line.takes("goes") => line.words("down").map(|()| Event::Down(desk)),
        () if line.takes("falls") => line.words("silent").map(|()| Event::Silent(desk)),
        () => line.wrong(
            "a desk `asks`, `upgrades`, `leaves`, `lapses`, `logs`, `recovers`, `starts`, `goes down` or \
             `falls silent`",
        ),
    }
}

fn mode(line: &mut Line) -> Got<Mode> {
    match () {
        () if line.takes("shared") => Ok(Mode::Shared),
        () if line.takes("exclusive") => Ok(Mode::Exclusive),
        () => line.wrong("`shared` or `exclusive` is due"),
    }
}

fn ask(line: &mut Line, desk: DeskId, mode: Mode, upgrade: bool) -> Got<Event> {
    line.words("for")?;
    let card = card(line)?;
    line.words("by")?;
    let front = line.clone();
    let pair = line.pair()?;
    let own = pair.own(mode);
    if own.number() != 0 && own.desk_id() != desk {
        let stamp = if mode == Mode::Shared { "s" } else { "x" };
        return front.says(format!(
            "desk {desk} asks {mode} by an {stamp} of its own, and this {stamp} is of desk {}",
            own.desk_id()
        ));
    }
    Ok(Event::Ask {
        desk,
        card,
        mode,
        pair,
        upgrade,
    })
}

fn lapse(line: &mut Line, desk: DeskId) -> Got<Event> {
    line.words("for")?;
    let card = card(line)?;
    let mut number = |word: &str| {
        line.words(word)?;
        line.decimal(&format!("the {word}"))
    };
    let lease = Lease {
        period: number("period")?,
        drift: number("drift")?,
        begin: number("begin")?,
        now: number("now")?,
    };
    Ok(Event::Lapse { desk, card, lease })
}

fn log(line: &mut Line, desk: DeskId) -> Got<Event> {
    let (kind, body) = forms::read_record(line)?;
    let cut = match line.takes("cut") {
        false => None,
        true => {
            line.words("after")?;
            let stores = Record::parse(kind, &body).map_or(1, |record| record.stores());
            Some(line.number_of("the number of stores", stores - 1)?)
        }
    };
    Ok(Event::Log {
        desk,
        kind,
        body,
        cut,
    })
}

fn pairs(line: &mut Line) -> Got<Vec<(u16, Pair)>> {
    let mut pairs = Vec::new();
    while line.takes("card") {
        let card = number(line, "the card")?;
        line.words("by")?;
        pairs.push((card, line.pair()?));
    }
    Ok(pairs)
}

/// A record in words; of one that cannot be read back, its kind and length.
fn record(kind: u8, body: &[u8]) -> String {
    match Record::parse(kind, body) {
        Some(record) => forms::record(&record),
        None => format!("a record of kind {kind}, {} bytes", body.len()),
    }
}

/// What a desk does in a queue, behind the desk's name.
fn queue_words(event: &Event) -> String {
    match event {
        Event::Ask {
            card,
            mode,
            pair,
            upgrade,
            ..
        } => {
            let (what, pair) = match upgrade {
                true => ("upgrades".into(), forms::pair(*pair)),
                false => (format!("asks {mode}"), forms::pair(*pair)),
            };
            format!("{what} for card {card} by {pair}")
        }
        Event::Leave { card, .. } => format!("leaves card {card}"),
        Event::Lapse { card, lease, .. } => {
            let Lease {
                period,
                drift,
                begin,
                now,
            } = lease;
            format!("lapses for card {card} period {period} drift {drift} begin {begin} now {now}")
        }
        _ => String::new(),
    }
}

/// What a desk does with its log, behind the desk's name.
fn log_words(event: &Event) -> String {
    match event {
        Event::Log {
            kind, body, cut, ..
        } => {
            let cut = cut.map(|stores| format!(" cut after {stores}"));
            format!("logs {}{}", record(*kind, body), cut.unwrap_or_default())
        }
        Event::Recover(_, pairs) => {
            let pairs = pairs.iter().map(|(card, pair)| {
                let pair = forms::pair(*pair);
                format!(" card {card} by {pair}")
            });
            format!("recovers{}", pairs.collect::<String>())
        }
        _ => String::new(),
    }
}

impl std::fmt::Display for Event {
    /// Its line.
    fn fmt(&self, to: &mut std::fmt::Formatter) -> std::fmt::Result {
        match self {
            Event::Note(words) => write!(to, "# {words}"),
            Event::Name { desk, name } => {
                write!(to, "name desk {desk} {}", forms::quoted(name.as_bytes()))
            }
            Event::Command { version, bytes } => to.write_str(&forms::command(*version, bytes)),
            Event::Ask { desk, .. } | Event::Leave { desk, .. } | Event::Lapse { desk, .. } => {
                write!(to, "desk {desk} {}", queue_words(self))
            }
            Event::Queue { card, places } => {
                write!(to, "queue for card {card} begins with {places} places")
            }
            Event::Log { desk, .. } | Event::Recover(desk, _) => {
                write!(to, "desk {desk} {}", log_words(self))
            }
            Event::Down(desk) => write!(to, "desk {desk} goes down"),
            Event::Silent(desk) => write!(to, "desk {desk} falls silent"),
            Event::Start(desk) => write!(to, "desk {desk} starts"),
            Event::Convert => to.write_str("store converts to version 2"),
        }
    }
}
