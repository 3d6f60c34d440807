use std::fmt::Write;

use lupaniele::{LARGEST_LOG, LOG_TABLE, Log, Number, Record};

use crate::{Got, Line, Wrong, lines, read_record, record};

/// A log as text: its length, a record a line, and what stands behind its records where that is not zero, as a cut append
/// leaves it.
///
/// ```
/// use lupaniele::{Log, Record};
/// let mut log = Log::empty(4_096)?;
/// log.append(&Record::Begin(7))?;
/// let text = forms::log(&log);
/// assert_eq!(text, "log of 4096 bytes\nbegin 7\n");
/// assert_eq!(forms::read_log(&text), Ok(log));
/// # Ok::<(), lupaniele::Number>(())
/// ```
#[must_use]
pub fn log<B: AsRef<[u8]>>(log: &Log<B>) -> String {
    let mut text = format!("log of {} bytes\n", log.bytes().len());
    for one in log.records() {
        let _ = writeln!(text, "{}", record(&one));
    }
    let clean = appended(log).map_or_else(Vec::new, Log::into_bytes);
    for (at, part) in differing(log.bytes(), &clean) {
        let _ = writeln!(text, "{}", hex(&format!("left at {at} bytes"), part));
    }
    text
}

/// The log of the same length that has the same records and nothing else.
fn appended<B: AsRef<[u8]>>(log: &Log<B>) -> Option<Log> {
    let mut clean = Log::empty(log.bytes().len()).ok()?;
    for record in log.records() {
        clean.append(&record).ok()?;
    }
    Some(clean)
}

/// Each run of bytes that are others in the second, with its place.
fn differing<'a>(bytes: &'a [u8], others: &[u8]) -> Vec<(usize, &'a [u8])> {
    let differs = |at: usize| bytes.get(at) != others.get(at);
    let (mut runs, mut at) = (Vec::new(), 0);
    while at < bytes.len() {
        let end = (at..bytes.len()).find(|end| differs(*end) != differs(at));
        let end = end.unwrap_or(bytes.len());
        if differs(at) {
            runs.push((at, &bytes[at..end]));
        }
        at = end;
    }
    runs
}

/// Some words, and bytes in base 16.
pub(crate) fn hex(words: &str, bytes: &[u8]) -> String {
    let mut text = String::from(words);
    for byte in bytes {
        let _ = write!(text, " {byte:02x}");
    }
    text
}

/// The log that a text says.
///
/// # Errors
///
/// Where the text is not as [`fn@log`] writes it, or the log refuses a record: the line says which.
///
/// ```
/// let wrong = forms::read_log("log of 4096 bytes\ncommit 7\n").unwrap_err();
/// assert_eq!(wrong.line, 2);
/// assert!(wrong.told.starts_with("bad log or record"));
/// ```
pub fn read_log(text: &str) -> Got<Log> {
    let mut all = lines(text)?.into_iter();
    let Some(mut first) = all.next() else {
        return Err(Wrong::new(
            1,
            1,
            "a log begins with its length, as in `log of 8192 bytes`",
        ));
    };
    let mut log = read_head(&mut first)?;
    let mut left: Vec<(Line, usize, Vec<u8>)> = Vec::new();
    for mut line in all {
        let front = line.clone();
        if line.takes("left") {
            line.words("at")?;
            let at = line.number_of("the place", LARGEST_LOG as u64)? as usize;
            line.words("bytes")?;
            left.push((front, at, line.hex()?));
        } else if left.is_empty() {
            append(&mut log, &mut line)?;
        } else {
            return front.wrong("`left at ..` is due: records stand in front of what is left");
        }
        line.done()?;
    }
    with_left(log, left)
}

fn read_head(line: &mut Line) -> Got<Log> {
    line.words("log of")?;
    let front = line.clone();
    let length = line.number_of("the number of its bytes", LARGEST_LOG as u64)?;
    line.words("bytes")?;
    line.done()?;
    let log = Log::empty(length as usize);
    log.or_else(|_| front.says(format!("a log has {LOG_TABLE} to {LARGEST_LOG} bytes")))
}

fn append(log: &mut Log, line: &mut Line) -> Got<()> {
    let front = line.clone();
    let (kind, body) = read_record(line)?;
    let appended = match Record::parse(kind, &body) {
        Some(record) => log.append(&record),
        None => Err(Number::BadLog),
    };
    appended.or_else(|number| front.says(format!("{number}: {}", number.meaning())))
}

/// The log with what a cut append left in it.
fn with_left(log: Log, left: Vec<(Line, usize, Vec<u8>)>) -> Got<Log> {
    let records = log.clone();
    let mut bytes = log.into_bytes();
    for (line, at, part) in &left {
        let Some(place) = bytes.get_mut(*at..at.saturating_add(part.len())) else {
            return line.says(format!("the log ends at byte {}", records.bytes().len()));
        };
        place.copy_from_slice(part);
    }
    let checked = Log::check(bytes).ok();
    match (checked, left.first()) {
        (Some(log), _) if log.records().eq(records.records()) => Ok(log),
        (_, Some((line, ..))) => {
            line.says("what is left would change a record: it stands behind them")
        }
        (_, None) => Ok(records),
    }
}
