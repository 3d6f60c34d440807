//! Recovery from a desk's redo log, through the guard (rules 11.15 to 11.19).
//! It is for version 1 alone.

use crate::command::CommandFields;
use crate::format::Format::V1;
use crate::image::Layout;
use crate::log::{read_back, Logged, Record};
use crate::number::{ACCEPTED, BAD_LOG};
use crate::stamp::Pair;
use crate::store::answer;

/// What recovery answers.
#[derive(Clone, Copy, Debug, PartialEq, Eq, Hash)]
pub struct Recovered {
    /// 0, 23, or the number of the write that was refused.
    pub number: u8,
    /// The line of the record whose write was refused, else 0.
    pub line: u64,
}

/// Sends the writes of the updates that are due, each under the pair that `s`
/// and `x` have for its card (rules 11.16 to 11.18).
pub fn recover(log: &[u8], image: &mut [u8], s: &[u64], x: &[u64]) -> Recovered {
    recover_by(log, image, s, x, |image, command| {
        answer(image, command, &mut []).number
    })
}

/// The same, with each write handed to `send`, which judges it on the image
/// and answers its number.
pub fn recover_by(
    log: &[u8],
    image: &mut [u8],
    s: &[u64],
    x: &[u64],
    mut send: impl FnMut(&mut [u8], &[u8]) -> u8,
) -> Recovered {
    let Some(read) = read_back(log) else {
        return Recovered {
            number: BAD_LOG,
            line: 0,
        };
    };
    for (line, logged) in (0..).zip(&read.records) {
        let Some(command) = write(&read.records, logged, image, s, x) else {
            continue;
        };
        let number = send(image, &command);
        if number != ACCEPTED {
            return Recovered { number, line };
        }
    }
    Recovered {
        number: ACCEPTED,
        line: 0,
    }
}

/// Whether a record is an update that is due (rule 11.15).
pub fn is_due(records: &[Logged], logged: &Logged) -> bool {
    let Record::Update { card, .. } = logged.record else {
        return false;
    };
    let transaction = logged.transaction;
    let committed = |other: &Logged| other.record == Record::Commit(transaction);
    let synced = |other: &Logged| match other.record {
        Record::Synced {
            card: of,
            transaction: since,
        } => of == card && since >= transaction,
        _ => false,
    };
    records.iter().any(committed) && !records.iter().any(synced)
}

/// The write of an update that is due (rules 11.15 and 11.17); none for any
/// other record.
fn write(
    records: &[Logged],
    logged: &Logged,
    image: &[u8],
    s: &[u64],
    x: &[u64],
) -> Option<Vec<u8>> {
    let Record::Update { card, side, text } = logged.record else {
        return None;
    };
    if !is_due(records, logged) {
        return None;
    }
    let stored = Layout::of_sound(V1, image).and_then(|layout| layout.entry(image, card));
    let stored = stored.unwrap_or_default();
    let stamp = |stamps: &[u64]| stamps.get(usize::from(card)).copied().unwrap_or(0);
    let fields = CommandFields {
        act: if side == 1 { 3 } else { 4 },
        mode: 2,
        card,
        pair: Pair::new(stamp(s), stamp(x)),
        expected: stored.mark,
        next: stored.mark,
        edition: if side == 1 { 0 } else { stored.edition },
        ..CommandFields::default()
    };
    Some(fields.with_payload(text))
}
