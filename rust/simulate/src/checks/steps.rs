//! The steps of a transaction, from the rules: what an answer tells (16.24),
//! the next step for a card (16.25), and when a log begins again (16.27).

use super::log::{due, read, Update, BEGIN, COMMIT, UPDATE};
use super::{Check, Checked, Made};
use crate::library::Next;

/// The steps, by their numbers.
pub const NOTHING: u8 = 0;
/// See [`NOTHING`].
pub const LOOK: u8 = 1;
/// See [`NOTHING`].
pub const PREPARE: u8 = 2;
/// See [`NOTHING`].
pub const READY: u8 = 3;
/// See [`NOTHING`].
pub const WRITE: u8 = 4;
/// See [`NOTHING`].
pub const RELEASE: u8 = 5;
/// See [`NOTHING`].
pub const NOTE: u8 = 6;
/// See [`NOTHING`].
pub const WAIT: u8 = 7;
/// See [`NOTHING`].
pub const BAD: u8 = 8;

/// What a desk has seen of a card.
#[derive(Clone, Copy, Debug, PartialEq, Eq)]
pub struct Seen {
    /// The desk in the mark.
    pub mark: u16,
    /// Whether it is the word that a prepare was accepted.
    pub prepared: bool,
    /// How many lines of the log are written out.
    pub reach: u64,
}

impl Seen {
    /// The answer to a step tells this; none where it shows no entry.
    pub fn upon((step, line): (u8, u8), number: u8, mark: u16) -> Option<Seen> {
        let accepted = number == 0;
        let written = accepted && step == WRITE;
        (!matches!(number, 1 | 2 | 9)).then(|| Seen {
            mark,
            prepared: accepted && step == PREPARE,
            reach: if written { u64::from(line) + 1 } else { 0 },
        })
    }

    /// In the four numbers of the interface: known, held, mark, reach.
    pub fn numbers(seen: Option<Seen>) -> [u16; 4] {
        seen.map_or([0; 4], |seen| {
            [1, seen.prepared.into(), seen.mark, seen.reach as u16]
        })
    }
}

/// The open transaction of a log and its updates; none where none is open.
pub fn open(log: &[u8]) -> Option<(u32, Vec<Update>)> {
    let read = read(log)?;
    let ends = |(kind, _): &(u8, &[u8])| matches!(*kind, BEGIN | COMMIT);
    let last = read.records.iter().rposition(ends)?;
    let (kind, body) = read.records[last];
    let number = u32::from_le_bytes(body.try_into().ok()?);
    let lines = read.records.iter().enumerate().skip(last);
    let updates = lines.filter(|(_, (kind, _))| *kind == UPDATE);
    let updates = updates.map(|(line, (_, body))| Update::of(line, number, body));
    (kind == BEGIN).then(|| (number, updates.collect()))
}

/// All updates of a log that are due; none of a log that is not good.
pub fn all_due(log: &[u8]) -> Vec<Update> {
    read(log).map_or(Vec::new(), |read| due(&read.records))
}

/// The next step (rule 16.25).
pub fn next(log: &[u8], (desk, card): (u16, u16), going: bool, seen: Option<Seen>) -> Next {
    if desk == 0 || read(log).is_none() {
        return (BAD, 0, 0);
    }
    let Some(seen) = seen else {
        return (LOOK, 0, 0);
    };
    let own = seen.mark == desk;
    let mut due = all_due(log);
    due.retain(|update| update.card == card);
    if let Some(last) = due.last() {
        let reached = |update: &&Update| update.line >= seen.reach;
        return match due.iter().find(reached) {
            _ if !own => (NOTE, 0, last.transaction.into()),
            Some(update) => (WRITE, update.line, 0),
            None => (RELEASE, 0, 0),
        };
    }
    let updates = |updates: &[Update]| updates.iter().any(|update| update.card == card);
    let goes_on = going && open(log).is_some_and(|(_, all)| updates(&all));
    let step = match seen.mark {
        0 if goes_on => PREPARE,
        _ if goes_on && !own => WAIT,
        _ if goes_on && seen.prepared => READY,
        _ if own => RELEASE,
        _ => NOTHING,
    };
    (step, 0, 0)
}

/// The next step was asked for.
pub fn stepped(
    made: &mut Made,
    log: &[u8],
    place: (u16, u16),
    (going, seen): (bool, Option<Seen>),
    told: Next,
) -> Checked {
    made.same(Check::NextStep, told, next(log, place, going, seen))
}

/// An answer to a step was heard.
pub fn heard(made: &mut Made, seen: Option<Seen>, told: [u16; 4]) -> Checked {
    made.same(Check::Heard, told, Seen::numbers(seen))
}

/// A log was to begin again: the log before, what was answered, the log after.
pub fn begun_again(made: &mut Made, before: &[u8], told: bool, log: &[u8]) -> Checked {
    let may = read(before).is_some() && all_due(before).is_empty();
    let mut after = before.to_vec();
    if may {
        after[0] = 0;
    }
    made.hold(Check::BeginAgain, told == may && log == after, || {
        format!("nothing is due in a good log: {may}; the library: {told}")
    })
}
