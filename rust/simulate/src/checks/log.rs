//! A desk's redo log: reading it back, and what an append stores (rules 11.1
//! to 11.15).

use std::collections::{HashMap, HashSet};

use second::{CommandFields, Mark, Pair};

use super::{Check, Checked, Made};

/// The kinds of record.
pub const BEGIN: u8 = 1;
/// See [`BEGIN`].
pub const UPDATE: u8 = 2;
/// See [`BEGIN`].
pub const COMMIT: u8 = 3;
/// See [`BEGIN`].
pub const SYNCED: u8 = 4;

/// Where the bodies begin.
pub const BODIES: usize = 2_201;

/// A number of these bytes, the lowest first.
fn little(bytes: &[u8]) -> u32 {
    bytes
        .iter()
        .rev()
        .fold(0, |sum, byte| sum << 8 | u32::from(*byte))
}

/// The order of transactions so far (rule 11.5).
#[derive(Clone, Copy, Debug, Default, PartialEq, Eq)]
struct Order {
    highest: u32,
    open: bool,
}

impl Order {
    /// The order with a record more, or none if the record may not stand next
    /// or breaks its layout (rule 11.4).
    fn then(self, kind: u8, body: &[u8]) -> Option<Order> {
        let number = || (body.len() == 4).then(|| little(body));
        match kind {
            BEGIN => number().filter(|new| *new > self.highest).map(|new| Order {
                highest: new,
                open: true,
            }),
            UPDATE => {
                let laid_out = body.len() >= 3 && (1..=2).contains(&body[2]);
                (laid_out && self.open).then_some(self)
            }
            COMMIT => number()
                .filter(|named| self.open && *named == self.highest)
                .map(|_| Order {
                    open: false,
                    ..self
                }),
            SYNCED => (body.len() == 6).then_some(self),
            _ => None,
        }
    }
}

/// The records of a good log: kind and body, in order.
type Records<'a> = Vec<(u8, &'a [u8])>;

/// A good log as it reads back: its records, the order so far, and where the
/// next body goes.
#[derive(Clone, Debug, PartialEq, Eq)]
pub struct Read<'a> {
    /// Kind and body of each record.
    pub records: Records<'a>,
    order: Order,
    end: usize,
}

/// What is read back of a log; none if it is not good (rules 11.6 and 11.7).
pub fn read(log: &[u8]) -> Option<Read<'_>> {
    if !(BODIES..=65_536).contains(&log.len()) || log[0] > 200 {
        return None;
    }
    let mut read = Read {
        records: Vec::with_capacity(usize::from(log[0]) + 1),
        order: Order::default(),
        end: BODIES,
    };
    for line in log[1..BODIES].chunks(11).take(log[0].into()) {
        let length = little(&line[5..7]) as usize;
        let body = log.get(read.end..read.end + length)?;
        if little(&line[1..5]) as usize != read.end || little(&line[7..11]) != sum(body) {
            return None;
        }
        read.order = read.order.then(line[0], body)?;
        read.records.push((line[0], body));
        read.end += length;
    }
    Some(read)
}

/// The sum of a body's bytes, modulo 2^32.
fn sum(body: &[u8]) -> u32 {
    body.iter()
        .fold(0u32, |sum, byte| sum.wrapping_add((*byte).into()))
}

/// An update that a log holds.
#[derive(Clone, Debug, PartialEq, Eq)]
pub struct Update {
    /// Its record's line, from 0.
    pub line: u64,
    /// Its transaction.
    pub transaction: u32,
    /// The card.
    pub card: u16,
    /// 1 the original, 2 the translation.
    pub side: u8,
    /// The text.
    pub text: Vec<u8>,
}

impl Update {
    /// The update of a transaction in a record of a line (rule 11.4).
    pub fn of(line: usize, transaction: u32, body: &[u8]) -> Update {
        Update {
            line: line as u64,
            transaction,
            card: little(&body[..2]) as u16,
            side: body[2],
            text: body[3..].to_vec(),
        }
    }

    /// The write of this update under a pair, where this mark and this edition
    /// are stored (rule 11.17).
    pub fn command(&self, mark: Mark, edition: u16, pair: Pair) -> Vec<u8> {
        let fields = CommandFields {
            act: 2 + self.side,
            mode: 2,
            card: self.card,
            pair,
            expected: mark,
            next: mark,
            edition: if self.side == 2 { edition } else { 0 },
            ..CommandFields::default()
        };
        fields.with_payload(&self.text)
    }
}

/// The updates that are due, in order (rule 11.15).
pub fn due(records: &[(u8, &[u8])]) -> Vec<Update> {
    let of = |wanted: u8| records.iter().filter(move |(kind, _)| *kind == wanted);
    let committed: HashSet<u32> = of(COMMIT).map(|(_, body)| little(body)).collect();
    let mut synced: HashMap<u16, u32> = HashMap::new();
    for (_, body) in of(SYNCED) {
        let highest = synced.entry(little(&body[..2]) as u16).or_default();
        *highest = little(&body[2..]).max(*highest);
    }
    let mut transaction = 0;
    let mut updates = Vec::new();
    for (line, (kind, body)) in records.iter().enumerate() {
        match *kind {
            BEGIN => transaction = little(body),
            UPDATE if committed.contains(&transaction) => {
                let card = little(&body[..2]) as u16;
                if synced.get(&card).is_none_or(|noted| *noted < transaction) {
                    updates.push(Update::of(line, transaction, body));
                }
            }
            _ => {}
        }
    }
    updates
}

/// The log that an append must leave, and its number (rules 11.10 to 11.12).
pub fn appended(log: &[u8], kind: u8, body: &[u8], stores: u64) -> (u8, Vec<u8>) {
    let mut after = log.to_vec();
    let Some(read) = read(log) else {
        return (23, after);
    };
    if body.len() > 65_535 || read.order.then(kind, body).is_none() {
        return (23, after);
    }
    if read.records.len() == 200 || read.end + body.len() > log.len() {
        return (24, after);
    }
    let mut line = vec![kind];
    line.extend_from_slice(&(read.end as u32).to_le_bytes());
    line.extend_from_slice(&(body.len() as u16).to_le_bytes());
    line.extend_from_slice(&sum(body).to_le_bytes());
    let body_at = (read.end..).zip(body.iter().copied());
    let line_at = (1 + 11 * read.records.len()..).zip(line);
    let all = body_at.chain(line_at).chain([(0, log[0] + 1)]);
    let whole = body.len() as u64 + 12;
    all.take(stores.min(whole) as usize)
        .for_each(|(at, byte)| after[at] = byte);
    (if stores < whole { 26 } else { 0 }, after)
}

/// An append was answered: the log before, the record and its budget, the
/// number, the log after.
pub fn checked(
    made: &mut Made,
    before: &[u8],
    (kind, body, stores): (u8, &[u8], u64),
    number: u8,
    log: &[u8],
) -> Checked {
    let (expected, bytes) = appended(before, kind, body, stores);
    read_back(made, before, (kind, body), expected, log)?;
    made.same(Check::AppendNumber, number, expected)?;
    made.hold(Check::LogBytes, log == bytes, || {
        let at = log.iter().zip(&bytes).position(|(a, b)| a != b);
        format!("the log differs at byte {at:?}")
    })
}

/// The log reads back as it did or, with all its stores made, with the record
/// at its end (rules 11.13 and 11.14).
fn read_back(
    made: &mut Made,
    before: &[u8],
    record: (u8, &[u8]),
    expected: u8,
    log: &[u8],
) -> Checked {
    let mut records = read(before).map(|read| read.records);
    if expected == 0 {
        records.iter_mut().for_each(|records| records.push(record));
    }
    let now = read(log).map(|read| read.records);
    made.hold(Check::ReadBack, now == records, || {
        let count = |records: &Option<Records>| records.as_ref().map(Vec::len);
        let (now, then) = (count(&now), count(&records));
        format!("read back are {now:?} records, and {then:?} must be")
    })
}
