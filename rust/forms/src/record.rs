use lupaniele::{Record, Side, Version};

use crate::command::read_side;
use crate::{Got, Line, payload, read_payload};

/// A record of a log in one line.
///
/// ```
/// use lupaniele::{Record, Side};
/// assert_eq!(forms::record(&Record::Begin(7)), "begin 7");
/// let update = Record::Update { card: 0, side: Side::Original, text: b"205" };
/// assert_eq!(forms::record(&update), r#"update original of card 0 text "205""#);
/// assert_eq!(forms::record(&Record::Synced { card: 0, transaction: 7 }), "synced card 0 transaction 7");
/// ```
#[must_use]
pub fn record(record: &Record) -> String {
    match record {
        Record::Begin(transaction) => format!("begin {transaction}"),
        Record::Update { card, side, text } => {
            let side = match side {
                Side::Original => "original",
                Side::Translation => "translation",
            };
            format!("update {side} of card {card} {}", payload(text))
        }
        Record::Commit(transaction) => format!("commit {transaction}"),
        Record::Synced { card, transaction } => {
            format!("synced card {card} transaction {transaction}")
        }
    }
}

/// Kind and body of the record that a line says.
///
/// # Errors
///
/// Where the line is not as [`record`] writes it.
///
/// ```
/// use lupaniele::Record;
/// let mut line = forms::Line::new(1, "commit 7")?;
/// let (kind, body) = forms::read_record(&mut line)?;
/// assert_eq!(Record::parse(kind, &body), Some(Record::Commit(7)));
/// # Ok::<(), forms::Wrong>(())
/// ```
pub fn read_record(line: &mut Line) -> Got<(u8, Vec<u8>)> {
    let made = |record: Record| Ok((record.kind(), record.body()));
    match () {
        () if line.takes("begin") => made(Record::Begin(line.u32_of("the transaction")?)),
        () if line.takes("commit") => made(Record::Commit(line.u32_of("the transaction")?)),
        () if line.takes("synced") => {
            line.words("card")?;
            let card = line.u16_of("the card")?;
            line.words("transaction")?;
            let transaction = line.u32_of("the transaction")?;
            made(Record::Synced { card, transaction })
        }
        () if line.takes("update") => {
            let side = match read_side(line, Version::One)? {
                None => Side::Original,
                Some(_) => Side::Translation,
            };
            line.words("of card")?;
            let card = line.u16_of("the card")?;
            let text = read_payload(line)?;
            let text = &text;
            made(Record::Update { card, side, text })
        }
        () => line.wrong("a record is due, `begin`, `update`, `commit` or `synced`"),
    }
}
