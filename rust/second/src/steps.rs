//! The steps of a transaction (rules 16.24 to 16.27): what a desk has seen of a
//! card, the next step for it, and a log that begins again.

use crate::log::{read_back, Logged, Record};
use crate::number::{ACCEPTED, MALFORMED, NO_SUCH_CARD, UNSOUND};
use crate::recovery::is_due;

/// The steps of rule 16.25.
pub const NOTHING: u8 = 0;
/// A command without a mark of the desk's.
pub const LOOK: u8 = 1;
/// The card gets the desk's mark.
pub const PREPARE: u8 = 2;
/// The card waits for the commit.
pub const READY: u8 = 3;
/// A line of the log is written out.
pub const WRITE: u8 = 4;
/// The mark is taken off.
pub const RELEASE: u8 = 5;
/// A synced record is appended.
pub const NOTE: u8 = 6;
/// The card is another desk's.
pub const WAIT: u8 = 7;
/// The log is not good, or there is no such desk.
pub const BAD: u8 = 8;

/// What a desk has seen of a card (rule 16.24).
#[derive(Clone, Copy, Debug, Default, PartialEq, Eq, Hash)]
pub struct Seen {
    /// The command that was last sent for the card is answered, with an entry.
    pub known: bool,
    /// It was a prepare, and was accepted.
    pub held: bool,
    /// The desk in the mark that the answer shows.
    pub mark: u16,
    /// How many lines of the log are written out.
    pub reach: u16,
}

/// A step, with its line or its transaction.
#[derive(Clone, Copy, Debug, Default, PartialEq, Eq, Hash)]
pub struct Next {
    /// One of the steps.
    pub step: u8,
    /// The line that is to be written.
    pub line: u64,
    /// The transaction that is to be noted.
    pub transaction: u64,
}

/// What the answer to a step tells.
pub fn heard(step: u8, line: u8, number: u8, mark: u16) -> Seen {
    let accepted = number == ACCEPTED;
    Seen {
        known: ![UNSOUND, MALFORMED, NO_SUCH_CARD].contains(&number),
        held: accepted && step == PREPARE,
        mark,
        reach: match accepted && step == WRITE {
            true => u16::from(line).saturating_add(1),
            false => 0,
        },
    }
}

/// The next step of a desk for a card: the first row that applies. `going`:
/// the desk goes on with the transaction that is open.
pub fn next_step(log: &[u8], desk: u16, card: u16, going: bool, seen: Seen) -> Next {
    let plain = |step| Next {
        step,
        ..Next::default()
    };
    let Some(read) = read_back(log) else {
        return plain(BAD);
    };
    if desk == 0 {
        return plain(BAD);
    }
    if !seen.known {
        return plain(LOOK);
    }
    let records = &read.records;
    let of_card =
        |logged: &Logged| matches!(logged.record, Record::Update { card: of, .. } if of == card);
    let due: Vec<(u64, u32)> = (0..)
        .zip(records)
        .filter(|(_, logged)| of_card(logged) && is_due(records, logged))
        .map(|(line, logged)| (line, logged.transaction))
        .collect();
    let marked = seen.mark == desk;
    if let Some((_, last)) = due.last() {
        let left = due.iter().find(|(line, _)| *line >= u64::from(seen.reach));
        return match (marked, left) {
            (false, _) => Next {
                step: NOTE,
                transaction: u64::from(*last),
                ..Next::default()
            },
            (true, Some((line, _))) => Next {
                step: WRITE,
                line: *line,
                ..Next::default()
            },
            (true, None) => plain(RELEASE),
        };
    }
    let open = open_transaction(records).filter(|_| going);
    let wanted = open.is_some_and(|open| {
        let mut of_it = records.iter().filter(|logged| logged.transaction == open);
        of_it.any(of_card)
    });
    plain(match (wanted, seen.mark) {
        (true, 0) => PREPARE,
        (true, _) if !marked => WAIT,
        (true, _) if seen.held => READY,
        _ if marked => RELEASE,
        _ => NOTHING,
    })
}

/// The transaction that is begun and not committed.
fn open_transaction(records: &[Logged]) -> Option<u32> {
    let last = records.iter().rev().find_map(|logged| match logged.record {
        Record::Begin(transaction) => Some(Some(transaction)),
        Record::Commit(_) => Some(None),
        _ => None,
    });
    last.flatten()
}

/// A good log in which nothing is due begins again, by one store.
pub fn begin_again(log: &mut [u8]) -> bool {
    let again = read_back(log).is_some_and(|read| {
        let mut records = read.records.iter();
        records.all(|logged| !is_due(&read.records, logged))
    });
    match log.first_mut() {
        Some(count) if again => *count = 0,
        _ => {}
    }
    again
}
