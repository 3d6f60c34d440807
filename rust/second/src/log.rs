//! A desk's redo log (rules 11.1 to 11.13): its layout, what is read back of
//! it, and appending with a budget of stores.

use crate::endian::{u16_at, u32_at};
use crate::number::{ACCEPTED, APPEND_CUT, BAD_LOG, LOG_FULL};

/// The most records of a log.
pub const RECORDS: usize = 200;
/// The bytes of a table line.
pub const LINE_BYTES: usize = 11;
/// Where the bodies begin.
pub const BODIES: usize = 2_201;
/// The most bytes of a log.
pub const LOG_LIMIT: usize = 65_536;
/// The stores of an append that are not its body's: a line and the count.
pub const OTHER_STORES: usize = 12;

/// What a record says.
#[derive(Clone, Copy, Debug, PartialEq, Eq, Hash)]
pub enum Record<'a> {
    /// Kind 1: a transaction begins.
    Begin(u32),
    /// Kind 2: a text of a card, side 1 or 2.
    Update {
        /// The card.
        card: u16,
        /// 1 for the original, 2 for the translation.
        side: u8,
        /// The text.
        text: &'a [u8],
    },
    /// Kind 3: a transaction commits.
    Commit(u32),
    /// Kind 4: a card is synced as of a transaction.
    Synced {
        /// The card.
        card: u16,
        /// The transaction.
        transaction: u32,
    },
}

impl<'a> Record<'a> {
    /// The record of a kind with a body, or none if the layout is broken.
    pub fn parse(kind: u8, body: &'a [u8]) -> Option<Record<'a>> {
        u16::try_from(body.len()).ok()?;
        match (kind, body.len()) {
            (1, 4) => Some(Record::Begin(u32_at(body, 0)?)),
            (2, _) => {
                let side = *body.get(2)?;
                matches!(side, 1 | 2).then_some(Record::Update {
                    card: u16_at(body, 0)?,
                    side,
                    text: body.get(3..)?,
                })
            }
            (3, 4) => Some(Record::Commit(u32_at(body, 0)?)),
            (4, 6) => Some(Record::Synced {
                card: u16_at(body, 0)?,
                transaction: u32_at(body, 2)?,
            }),
            _ => None,
        }
    }
}

/// A record that was read back, with the transaction that was the last begun.
#[derive(Clone, Copy, Debug, PartialEq, Eq, Hash)]
pub struct Logged<'a> {
    /// What it says.
    pub record: Record<'a>,
    /// The transaction it stands in, 0 before the first.
    pub transaction: u32,
}

/// What is read back of a log, and where the next body goes.
#[derive(Clone, Debug, Default, PartialEq, Eq)]
pub struct ReadBack<'a> {
    /// The records in order.
    pub records: Vec<Logged<'a>>,
    last: u32,
    open: bool,
    end: usize,
}

impl<'a> ReadBack<'a> {
    /// One record more, or none if it breaks the order of transactions.
    fn with(mut self, record: Record<'a>, length: usize) -> Option<ReadBack<'a>> {
        let fits = match record {
            Record::Begin(transaction) => transaction > self.last,
            Record::Update { .. } => self.open,
            Record::Commit(transaction) => self.open && transaction == self.last,
            Record::Synced { .. } => true,
        };
        if !fits {
            return None;
        }
        match record {
            Record::Begin(transaction) => (self.last, self.open) = (transaction, true),
            Record::Commit(_) => self.open = false,
            Record::Update { .. } | Record::Synced { .. } => {}
        }
        let transaction = self.last;
        self.records.push(Logged {
            record,
            transaction,
        });
        self.end = self.end.saturating_add(length);
        Some(self)
    }
}

/// The sum of these bytes, modulo 2^32 (rule 11.2).
pub fn sum(bytes: &[u8]) -> u32 {
    let add = |sum: u32, byte: &u8| sum.wrapping_add(u32::from(*byte));
    bytes.iter().fold(0, add)
}

/// What is read back of a log, or none if it is not good (rules 11.6 and 11.7).
pub fn read_back(log: &[u8]) -> Option<ReadBack<'_>> {
    if !(BODIES..=LOG_LIMIT).contains(&log.len()) {
        return None;
    }
    let count = usize::from(*log.first()?);
    if count > RECORDS {
        return None;
    }
    let start = ReadBack {
        end: BODIES,
        ..ReadBack::default()
    };
    let mut lines = log.get(1..BODIES)?.chunks_exact(LINE_BYTES).take(count);
    lines.try_fold(start, |read, line| {
        let place = usize::try_from(u32_at(line, 1)?).ok()?;
        let length = usize::from(u16_at(line, 5)?);
        let body = log.get(place..place.checked_add(length)?)?;
        if place != read.end || u32_at(line, 7)? != sum(body) {
            return None;
        }
        read.with(Record::parse(*line.first()?, body)?, length)
    })
}

/// Checks a log: 0 or 23.
pub fn check(log: &[u8]) -> u8 {
    read_back(log).map_or(BAD_LOG, |_| ACCEPTED)
}

/// Appends a record, as far as so many stores go (rules 11.9 to 11.12).
pub fn append(log: &mut [u8], kind: u8, body: &[u8], stores: u64) -> u8 {
    let Some(read) = read_back(log) else {
        return BAD_LOG;
    };
    let (count, end) = (read.records.len(), read.end);
    let record = Record::parse(kind, body);
    if record
        .and_then(|record| read.with(record, body.len()))
        .is_none()
    {
        return BAD_LOG;
    }
    let room = log.len().saturating_sub(end);
    if count == RECORDS || room < body.len() {
        return LOG_FULL;
    }
    let all = all_stores(count, end, kind, body);
    let taken = usize::try_from(stores).unwrap_or(usize::MAX);
    for (place, byte) in all.iter().take(taken) {
        if let Some(to) = log.get_mut(*place) {
            *to = *byte;
        }
    }
    match taken < all.len() {
        true => APPEND_CUT,
        false => ACCEPTED,
    }
}

/// The stores of an append, in order: places and bytes (rule 11.10).
// The count is below 200 and the place at most 65,536.
#[allow(clippy::arithmetic_side_effects)]
fn all_stores(count: usize, end: usize, kind: u8, body: &[u8]) -> Vec<(usize, u8)> {
    let mut line = vec![kind];
    line.extend_from_slice(&(end as u32).to_le_bytes());
    line.extend_from_slice(&(body.len() as u16).to_le_bytes());
    line.extend_from_slice(&sum(body).to_le_bytes());
    let body = (end..).zip(body.iter().copied());
    let line = (1 + LINE_BYTES * count..).zip(line);
    let count = std::iter::once((0, (count + 1) as u8));
    body.chain(line).chain(count).collect()
}
