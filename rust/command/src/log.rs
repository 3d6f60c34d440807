//! `lupaniele log`: a desk's redo log.

use std::collections::BTreeMap;
use std::fmt::{Display, Write};
use std::path::Path;

use lupaniele::desk::{Desk, Journal, Store};
use lupaniele::files::LogFile;
use lupaniele::{
    AppendError, DeskId, Image, Known, LARGEST_LOG, Log, Mode, Number, Pair, Record, Side, Version,
};

use crate::args::Args;
use crate::input;
use crate::make::exists;
use crate::outcome::{Done, Failed, Outcome, some, verdict};
use crate::send::{numbered, shortened, under};

/// The columns in front of a record, for its number and whether it is due.
const NOTED: usize = 10;

/// How many bytes a log has if nothing else is said.
const LENGTH: usize = 8_192;

pub fn make(args: &Args) -> Outcome {
    let path = args.written(0).map_err(Failed::unusable)?;
    let log = match args.file("--from") {
        Some(_) if args.has("--bytes") => {
            return Err(Failed::unusable("--from has the bytes in its text"));
        }
        Some(from) => {
            let text = input::text(from, "the text of a log")?;
            forms::read_log(&text).map_err(input::wrong(from))?
        }
        None => {
            let least = lupaniele::LOG_TABLE;
            let right = format!("a log has {least} to {LARGEST_LOG} bytes (rule 11.1)");
            let length: Option<usize> = args.number("--bytes", &right).map_err(Failed::unusable)?;
            let length = length.unwrap_or(LENGTH);
            let told = format!("--bytes {length}: {right}");
            Log::empty(length).map_err(|_| Failed::unusable(told))?
        }
    };
    if path.exists() {
        return Err(exists(path));
    }
    let made = LogFile::create_with(path, &log);
    made.map_err(|why| Failed::unusable(format!("{}: {why}", path.display())))?;
    let made = format!("{}: made, {}\n", path.display(), described(&log));
    Done::changed(made, true)
}

fn described(log: &Log) -> String {
    let (length, records) = (log.bytes().len(), some(log.count(), "record"));
    format!("a log of {length} bytes with {records}")
}

pub fn check(args: &Args) -> Outcome {
    let path = args.path(0);
    match verdict(input::log(path))? {
        Ok(log) => Done::well(format!("{}: good: {}\n", path.display(), described(&log))),
        Err(bad) => Ok(bad),
    }
}

pub fn show(args: &Args) -> Outcome {
    let path = args.path(0);
    let log = input::log(path)?;
    if args.has("--text") {
        return Done::well(forms::log(&log));
    }
    let due: BTreeMap<usize, u32> = log.due().into_iter().collect();
    let mut out = format!("{}: {}\n", path.display(), described(&log));
    for (at, record) in log.records().enumerate() {
        let note = if due.contains_key(&at) {
            "  due  "
        } else {
            "       "
        };
        let form = shortened(&forms::record(&record), NOTED);
        let _ = writeln!(out, "{at:>3}{note}{form}");
    }
    let clean = forms::log(&log)
        .lines()
        .all(|line| !line.starts_with("left "));
    if !clean {
        out +=
            "behind the records stands what a cut append left; it is not read back (rule 11.13)\n";
    }
    out += &match due.len() {
        0 => "nothing is due: every committed update is noted as synced\n".into(),
        1 => "1 update is due: `lupaniele log recover` writes it to its card\n".into(),
        count => {
            format!("{count} updates are due: `lupaniele log recover` writes them to their cards\n")
        }
    };
    Done::well(out)
}

/// A record of a list, with its line and where it is cut.
struct Entry {
    line: usize,
    kind: u8,
    body: Vec<u8>,
    cut: Option<u64>,
}

fn read(path: &Path) -> Result<Vec<Entry>, Failed> {
    let text = input::text(path, "a list of records")?;
    let read = || {
        let mut entries = Vec::new();
        for mut line in forms::lines(&text)? {
            let (kind, body) = forms::read_record(&mut line)?;
            let cut = match line.takes("cut") {
                false => None,
                true => {
                    line.words("after")?;
                    Some(line.number_of("the number of stores", u64::MAX)?)
                }
            };
            line.done()?;
            let line = line.number();
            entries.push(Entry {
                line,
                kind,
                body,
                cut,
            });
        }
        Ok(entries)
    };
    let entries: Vec<Entry> = read().map_err(input::wrong(path))?;
    match entries.is_empty() {
        true => Err(Failed::unusable(format!(
            "{}: there is no record in it",
            path.display()
        ))),
        false => Ok(entries),
    }
}

/// Appends the records of a list, each kept before the next; stops at the first that is refused or cut.
pub fn append(args: &Args) -> Outcome {
    let path = args.written(0).map_err(Failed::unusable)?;
    let entries = read(args.path(1))?;
    let mut file = input::log_file(path)?;
    let (mut out, mut well) = (String::new(), true);
    for entry in &entries {
        let Some(record) = Record::parse(entry.kind, &entry.body) else {
            continue; // each was read as a record
        };
        let number = appended(&mut file, &record, entry.cut).map_err(|why| {
            let (path, line) = (path.display(), entry.line);
            Failed::unusable(format!("{path}: line {line} of the list: {why}"))
        })?;
        out += &numbered(entry.line, &forms::record(&record));
        out += &told(number, file.log(), &record);
        if number != Number::Accepted {
            well = false;
            break;
        }
    }
    let _ = writeln!(out, "{}: {}", path.display(), described(file.log()));
    Done::changed(out, well)
}

fn appended(file: &mut LogFile, record: &Record, cut: Option<u64>) -> Result<Number, String> {
    if let Some(stores) = cut {
        return file
            .append_cut(record, stores)
            .map_err(|why| why.to_string());
    }
    match file.append(record) {
        Ok(()) => Ok(Number::Accepted),
        Err(AppendError::Refused(number)) => Ok(number),
        Err(why) => Err(why.to_string()),
    }
}

fn told(number: Number, log: &Log, record: &Record) -> String {
    match number {
        Number::Accepted => "     0 appended\n".into(),
        Number::BadLog => under(&format!(
            "{}: {}.",
            forms::number(number),
            out_of_order(log, record)
        )),
        number => {
            let short = format!("{}: {}", forms::number(number), number.meaning());
            under(&short) + &under(number.advice())
        }
    }
}

/// Why a record may not stand next in a good log (rule 11.5).
fn out_of_order(log: &Log, record: &Record) -> String {
    let open = log.records().fold(None, |open, record| match record {
        Record::Begin(transaction) => Some(transaction),
        Record::Commit(_) => None,
        _ => open,
    });
    let open = match open {
        None => "no transaction is open".into(),
        Some(open) => format!("transaction {open} is open"),
    };
    match record {
        Record::Begin(_) => {
            let last = log.last_begun();
            format!("a transaction begins once, with a number above {last}, the last that began")
        }
        Record::Commit(named) => format!("it commits transaction {named}, and {open}"),
        Record::Update { .. } => format!("an update stands in a transaction, and {open}"),
        Record::Synced { .. } => "it breaks the layout of a record".into(),
    }
}

/// Writes what is due to the cards, and notes it as synced.
pub fn recover(args: &Args) -> Outcome {
    let (path, image_path) = (args.written(0), args.written(1));
    let path = path.map_err(Failed::unusable)?;
    let image_path = image_path.map_err(Failed::unusable)?;
    let desk = desk(args)?;
    let version = input::image(image_path)?.version();
    if version != Version::One {
        let told = format!(
            "{}: an image of {version}; recovery is for version 1 (rule 15.13)",
            image_path.display()
        );
        return Err(Failed::refused(told));
    }
    if args.has("--dry-run") {
        let (mut log, mut image) = (input::log(path)?, input::image(image_path)?);
        let (out, well) = match args.has("--marked") {
            true => (marked(desk, image_path, &mut image, &mut log)?, true),
            false => recovered(&log, &mut image, desk),
        };
        return Done::saying(out + "nothing was changed (--dry-run)\n", well);
    }
    let mut log = input::log_file(path)?;
    let mut image = input::image_file(image_path)?;
    if args.has("--marked") {
        return Done::changed(marked(desk, image_path, &mut image, &mut log)?, true);
    }
    let due = synced(log.log());
    let saved = image.change(|image| recovered(log.log(), image, desk));
    let (mut out, well) =
        saved.map_err(|why| Failed::unusable(format!("{}: {why}", image_path.display())))?;
    if well {
        out += &noted(&mut log, &due, path)?;
    }
    Done::changed(out, well)
}

/// Who recovers.
fn desk(args: &Args) -> Result<DeskId, Failed> {
    let what =
        "the desk, 1 to 65535, and a start that it never had, 0 to 65535, as in 1.1 (rule 10.9)";
    let missing = || Failed::unusable(format!("--desk D.S is needed: {what}"));
    let value = args.value("--desk").ok_or_else(missing)?;
    let read = forms::Line::new(1, &value).and_then(|mut line| {
        let desk = line.desk()?;
        line.done()?;
        Ok(desk)
    });
    match read {
        Ok(desk) if desk.desk > 0 => Ok(desk),
        _ => Err(Failed::unusable(format!("--desk {value}: {what}"))),
    }
}

/// Sends the updates that are due, under pairs that the desk proposes from what is stored.
fn recovered(log: &Log, image: &mut Image, desk: DeskId) -> (String, bool) {
    let (records, due) = (log.records().collect::<Vec<_>>(), log.due());
    if due.is_empty() {
        return ("nothing is due\n".into(), true);
    }
    let last = synced(log).into_keys().next_back().unwrap_or(0);
    let pairs = proposed(image, desk, last);
    let stopped = log.recover(image, &pairs).err();
    let mut out = String::new();
    for (at, transaction) in due {
        let Some(Record::Update { card, side, .. }) = records.get(at) else {
            continue; // only updates are due
        };
        let side = match side {
            Side::Original => "original",
            Side::Translation => "translation",
        };
        let update = format!("record {at}, transaction {transaction}: {side} of card {card}");
        if let Some(stopped) = stopped.filter(|stopped| stopped.line == at) {
            let _ = writeln!(out, "{update}: {}", forms::number(stopped.number));
            out += &under(stopped.number.meaning());
            break;
        }
        let pair = pairs.get(usize::from(*card)).copied().unwrap_or_default();
        let _ = writeln!(out, "{update}: written under {}", forms::pair(pair));
    }
    (out, stopped.is_none())
}

/// For each card up to the last that has something due the exclusive pair that a desk proposes which has just learned
/// what is stored; none where it has no stamp left.
fn proposed(image: &Image, desk: DeskId, last: u16) -> Vec<Pair> {
    let pairs = (0..=last).map(|card| {
        let mut known = Known::nothing(desk);
        known.learn(image.card(card).map(|card| card.pair()).unwrap_or_default());
        known.propose(Mode::Exclusive).unwrap_or_default()
    });
    pairs.collect()
}

/// Of each card that has something due, the last transaction of it.
fn synced(log: &Log) -> BTreeMap<u16, u32> {
    let records: Vec<Record> = log.records().collect();
    let due = log
        .due()
        .into_iter()
        .filter_map(|(at, transaction)| match records.get(at) {
            Some(Record::Update { card, .. }) => Some((*card, transaction)),
            _ => None,
        });
    due.collect()
}

/// Notes cards as synced in the log, so that nothing of them is due again.
fn noted(log: &mut LogFile, due: &BTreeMap<u16, u32>, path: &Path) -> Result<String, Failed> {
    let mut out = String::new();
    for (card, transaction) in due {
        let (card, transaction) = (*card, *transaction);
        let record = Record::Synced { card, transaction };
        let noted = log.append(&record);
        noted.map_err(|why| {
            let told = format!(
                "{}: the cards are written, and card {card} is not noted as synced: {why}",
                path.display()
            );
            Failed::unusable(told)
        })?;
        let _ = writeln!(out, "noted in the log: {}", forms::record(&record));
    }
    Ok(out)
}

/// Recovery by the rules for transactions: only cards that bear the desk's mark are written.
fn marked<S: Store, J: Journal>(
    desk: DeskId,
    path: &Path,
    image: &mut S,
    log: &mut J,
) -> Result<String, Failed>
where
    S::Error: Display,
    J::Error: Display,
{
    let done = Desk::start(desk).recover(image, log);
    let done = done.map_err(|why| Failed::refused(format!("{}: {why}", path.display())))?;
    let (updates, cards) = (some(done.written, "update"), some(done.synced, "card"));
    Ok(format!("{updates} written, {cards} noted as synced\n"))
}
