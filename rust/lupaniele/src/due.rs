use crate::desk::{NextStep, Seen};
use crate::{Log, Record};

/// Any desk: what is due goes by the log alone.
const ANY: u16 = 1;

/// The updates of a log that are due, in its order, each by its record and its transaction (rule 11.15). The library is
/// asked of each: a desk whose mark the card bears, and that has written out every line before this one, is to write it
/// next (rule 16.25).
pub(crate) fn due<B: AsRef<[u8]>>(log: &Log<B>) -> Vec<(usize, u32)> {
    let mut open = 0;
    let mut updates = Vec::new();
    for (record, line) in log.records().zip(0..) {
        match record {
            Record::Begin(transaction) => open = transaction,
            Record::Update { card, .. } if is_due(log.bytes(), line, card) => {
                updates.push((usize::from(line), open));
            }
            _ => {}
        }
    }
    updates
}

fn is_due(log: &[u8], line: u8, card: u16) -> bool {
    let before = match line.checked_sub(1) {
        Some(line) => NextStep::Write { line },
        None => NextStep::Look,
    };
    let seen = Seen::accepted(before, ANY);
    NextStep::of(log, ANY, card, false, seen) == NextStep::Write { line }
}

#[cfg(test)]
mod tests {
    use crate::{Log, Record, Side};

    #[test]
    fn committed_and_not_synced() {
        let mut log = Log::empty(4_096).expect("a log of this length");
        let update = |card| Record::Update {
            card,
            side: Side::Original,
            text: b"205",
        };
        for record in [
            update(0), // refused: no transaction is open
            Record::Begin(7),
            update(0),
            update(1),
            update(0),
            Record::Commit(7),
            Record::Begin(9),
            update(1),
        ] {
            let _ = log.append(&record);
        }
        assert_eq!(log.due(), [(1, 7), (2, 7), (3, 7)]);
        let synced = |card, transaction| Record::Synced { card, transaction };
        log.append(&synced(0, 6)).expect("a record");
        assert_eq!(log.due(), [(1, 7), (2, 7), (3, 7)]);
        log.append(&synced(0, 8)).expect("a record");
        assert_eq!(log.due(), [(2, 7)]);
        log.append(&Record::Commit(9)).expect("a record");
        assert_eq!(log.due(), [(2, 7), (6, 9)]);
        log.append(&synced(1, 7)).expect("a record");
        assert_eq!(log.due(), [(6, 9)]);
    }
}
