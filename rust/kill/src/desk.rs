//! A desk as a process: it starts, recovers, and works at random until it is killed. What it does to the store and to
//! its log it notes in the trace, before and behind.

use std::collections::BTreeSet;
use std::path::PathBuf;
use std::time::{Duration, Instant};

use lupaniele::desk::{
    Desk, Exclusive, Failed, Journal, Original, Refusal, Session, Shared, Store, Transaction,
    Undone, Why,
};
use lupaniele::files::{next_start, FileError, ImageFile, LogFile};
use lupaniele::{Answer, AppendError, DeskId, Language, Log, Number, Record, Version};
use second::random::Random;

use crate::texts::{edited, translated};
use crate::town::{waited, Town, LOG, ROOM};
use crate::trace::{Note, Trace};

/// A desk that nobody kills ends by itself.
const LIFE: Duration = Duration::from_secs(20);
/// The one language that transactions write (rule 11.4).
const FIRST: u8 = 0;
/// How often a recovery is tried while others are quicker.
const RECOVERIES: u32 = 1_000;

/// The way to the store: its file, opened for some commands and closed again.
struct Line {
    image: PathBuf,
    version: Version,
    trace: Trace,
    who: DeskId,
    file: Option<ImageFile>,
    /// For so many commands more the file stays open.
    left: u32,
    random: Random,
}

impl Line {
    fn new(town: &Town, who: DeskId, seed: u64) -> Result<Line, String> {
        Ok(Line {
            image: town.image(),
            version: town.version,
            trace: Trace::open(&town.trace())?,
            who,
            file: None,
            left: 1,
            random: Random::new(seed),
        })
    }

    fn close(&mut self) {
        self.file = None;
        self.left = self.random.pick(&[1, 1, 1, 1, 2, 3, 6]);
    }
}

impl Store for Line {
    type Error = String;

    fn version(&self) -> Version {
        self.version
    }

    fn room(&self) -> u16 {
        ROOM
    }

    fn send(&mut self, command: &[u8], reply: &mut [u8]) -> Result<Answer, String> {
        let mut file = match self.file.take() {
            Some(file) => file,
            None => waited(|| ImageFile::open(&self.image))?,
        };
        let sent = Note::Sent {
            image: file.image().bytes().to_vec(),
            command: command.to_vec(),
            lent: reply.len() as u32,
        };
        self.trace.note(self.who, sent)?;
        let answer = file.send(command, reply).map_err(|why| why.to_string())?;
        let end = reply.iter().rposition(|byte| *byte != 0);
        let answered = Note::Answered {
            line: answer.to_line(),
            reply: reply[..end.map_or(0, |last| last + 1)].to_vec(),
        };
        self.trace.note(self.who, answered)?;
        self.left -= 1;
        match self.left {
            0 => self.close(),
            _ => self.file = Some(file),
        }
        Ok(answer)
    }
}

/// A desk's log in its file.
struct Noted {
    file: LogFile,
    trace: Trace,
    who: DeskId,
}

impl Noted {
    /// Whoever has the log acts for its desk (rule 16.23), under a start that it never had (10.9).
    fn open(town: &Town, desk: u16, by: u16, file: LogFile) -> Result<Noted, String> {
        let start = waited(|| next_start(town.starts(desk)))?;
        let trace = Trace::open(&town.trace())?;
        let who = DeskId::new(desk, start);
        let log = file.log().bytes().to_vec();
        trace.note(who, Note::Opened { log, by })?;
        Ok(Noted { file, trace, who })
    }

    fn begin_again(self) -> Result<Noted, String> {
        let Noted { file, trace, who } = self;
        trace.note(who, Note::Beginning)?;
        let file = file.begin_again().map_err(|why| why.to_string())?;
        let log = file.log().bytes().to_vec();
        trace.note(who, Note::Begun { log })?;
        Ok(Noted { file, trace, who })
    }
}

impl Journal for Noted {
    type Error = String;

    fn log(&self) -> &[u8] {
        self.file.log().bytes()
    }

    fn append(&mut self, record: &Record) -> Result<(), AppendError<String>> {
        let (kind, body) = (record.kind(), record.body());
        let noted = self.trace.note(self.who, Note::Appending { kind, body });
        noted.map_err(AppendError::NotAppended)?;
        let appended = self.file.append(record).map_err(|why| match why {
            AppendError::Refused(number) => AppendError::Refused(number),
            AppendError::NotAppended(why) => AppendError::NotAppended(why.to_string()),
            AppendError::Unknown(why) => AppendError::Unknown(why.to_string()),
        });
        let number = match &appended {
            Ok(()) => 0,
            Err(AppendError::Refused(number)) => *number as u8,
            Err(_) => return appended,
        };
        let noted = self.trace.note(self.who, Note::Appended { number });
        noted.map_err(AppendError::Unknown)?;
        appended
    }
}

/// Finishes what stands in a log; who meets others that are quicker tries again. In version 2 nothing does.
fn recover(desk: &mut Desk, line: &mut Line, log: &mut Noted) -> Result<(), String> {
    if line.version == Version::Two {
        return Ok(());
    }
    for _ in 0..RECOVERIES {
        let recovered = desk.recover(line, log);
        line.close();
        match recovered {
            Ok(_) => return log.trace.note(log.who, Note::Recovered),
            Err(Undone::Committed(Why::Store {
                failed: Failed::Refused(Refusal::Stale { .. } | Refusal::Marked(_)),
                ..
            })) => {}
            Err(why) => return Err(format!("recovery: {why}")),
        }
    }
    Err("recovery: others are quicker, every time".to_string())
}

/// Acts for a desk that is down: finishes what stands in its log.
pub fn finish(town: &Town, desk: u16, by: u16, file: LogFile) -> Result<(), String> {
    let mut log = Noted::open(town, desk, by, file)?;
    let mut line = Line::new(town, log.who, by.into())?;
    let mut desk = Desk::start(log.who).trying(3);
    recover(&mut desk, &mut line, &mut log)
}

/// A desk at work.
pub struct Worker {
    town: Town,
    desk: Desk,
    line: Line,
    log: Option<Noted>,
    random: Random,
    texts: u32,
}

/// Starts a desk, which then works until it is killed.
pub fn work(town: &Town, number: u16, seed: u64) -> Result<(), String> {
    let mut worker = Worker::start(town, number, seed)?;
    let since = Instant::now();
    while since.elapsed() < LIFE {
        worker.step()?;
    }
    Ok(())
}

/// What may become of a read or a write beside other desks.
fn told<T>(done: Result<T, Failed<String>>) -> Result<(), String> {
    match done {
        Ok(_)
        | Err(Failed::Refused(
            Refusal::Stale { .. } | Refusal::Marked(_) | Refusal::Behind { .. },
        )) => Ok(()),
        Err(why) => Err(why.to_string()),
    }
}

impl Worker {
    /// It opens its log, takes a start, and recovers.
    pub fn start(town: &Town, number: u16, seed: u64) -> Result<Worker, String> {
        let path = town.log(number);
        let file = waited(|| match path.exists() {
            true => LogFile::open(&path),
            false => LogFile::create(&path, LOG),
        })?;
        let mut log = Noted::open(town, number, number, file)?;
        let mut line = Line::new(town, log.who, seed)?;
        let mut desk = Desk::start(log.who).trying(3);
        recover(&mut desk, &mut line, &mut log)?;
        Ok(Worker {
            town: town.clone(),
            desk,
            line,
            log: Some(log),
            random: Random::new(seed ^ 0x5555),
            texts: 0,
        })
    }

    /// It does something, and closes the store's file.
    pub fn step(&mut self) -> Result<(), String> {
        let done = self.something();
        self.line.close();
        done
    }

    /// A text that nobody else writes.
    fn text(&mut self) -> Vec<u8> {
        self.texts += 1;
        let DeskId { desk, start } = self.desk.id();
        format!("{desk}.{start}.{}", self.texts).into_bytes()
    }

    fn card(&mut self) -> u16 {
        self.random.below(self.town.cards.into()) as u16
    }

    fn language(&mut self) -> Language {
        self.random.pick(self.town.version.languages())
    }

    fn something(&mut self) -> Result<(), String> {
        let (card, text, language) = (self.card(), self.text(), self.language());
        let (desk, line) = (&mut self.desk, &mut self.line);
        match self.random.below(13) {
            0 => told(desk.read_original(line, card)),
            1 => told(desk.write_original(line, card, &text)),
            2 => told(desk.read_translation(line, card, language)),
            3 | 4 => told(self.translate(card, language)),
            5 => told(self.edit(card)),
            6 => self.both(card, language),
            7 => self.help(),
            _ if line.version == Version::Two => told(self.translate(card, language)),
            _ => self.change(),
        }
    }

    /// Reads, and upgrades to write the translation of what was read.
    fn translate(&mut self, card: u16, language: Language) -> Result<(), Failed<String>> {
        let work = |mut session: Session<Line, Shared>| {
            let original = session.read_original()?;
            if original.edition() == 0 {
                return Ok(());
            }
            let text = translated(language.number(), original.text());
            let mut session = session.upgrade()?;
            session.write_translation(&original, language, &text)
        };
        self.desk.session(&mut self.line, card, work)
    }

    /// Puts a sign behind an original: nobody comes between.
    fn edit(&mut self, card: u16) -> Result<Original, Failed<String>> {
        let work = |mut session: Session<Line, Exclusive>| {
            let text = edited(session.read_original()?.text());
            session.write_original(&text)
        };
        self.desk.session(&mut self.line, card, work)
    }

    /// Reads both languages in one session: what belongs together.
    fn both(&mut self, card: u16, language: Language) -> Result<(), String> {
        let work = |mut session: Session<Line, Shared>| {
            let original = session.read_original()?;
            Ok((original, session.read_translation(language)?))
        };
        match self.desk.session(&mut self.line, card, work) {
            Ok((original, text)) if text != translated(language.number(), original.text()) => {
                Err(format!("card {card}: a translation of another original"))
            }
            read => told(read),
        }
    }

    /// Finishes the log of a desk that is down, if nobody else does.
    fn help(&mut self) -> Result<(), String> {
        let other = self.random.between(1, self.town.desks.into()) as u16;
        let path = self.town.log(other);
        if other == self.desk.id().desk || !path.exists() {
            return Ok(());
        }
        let file = match LogFile::open(&path) {
            Err(FileError::InUse) => return Ok(()),
            opened => opened.map_err(|why| why.to_string())?,
        };
        finish(&self.town, other, self.desk.id().desk, file)
    }

    /// Changes several cards at once.
    fn change(&mut self) -> Result<(), String> {
        let mut log = self.log.take().ok_or("a desk has its log")?;
        if u64::from(log.file.log().count()) > self.random.between(30, 150) {
            recover(&mut self.desk, &mut self.line, &mut log)?;
            log = log.begin_again()?;
        }
        let changed = self.transact(&mut log);
        self.log = Some(log);
        changed
    }

    fn transact(&mut self, log: &mut Noted) -> Result<(), String> {
        let cards: BTreeSet<u16> = (0..3).map(|_| self.card()).collect();
        let texts: Vec<Vec<u8>> = cards.iter().map(|_| self.text()).collect();
        // Read before it begins: it may be changed by then.
        let early = self.desk.read_original(&mut self.line, 0);
        let begun = self.desk.transaction(&mut self.line, log);
        let mut transaction = begun.map_err(|why| format!("beginning: {why}"))?;
        let number = transaction.number();
        for (card, text) in cards.iter().zip(&texts) {
            let planned = plan(&mut self.random, &mut transaction, &early, *card, text);
            planned.map_err(|why| format!("an update: {why}"))?;
        }
        let done = match transaction.commit() {
            Ok(()) => true,
            Err(Undone::Aborted(Why::Store {
                failed: Failed::Refused(_),
                ..
            }))
            | Err(Undone::Aborted(Why::Unwritable {
                number: Number::EditionWrong,
                ..
            })) => false,
            Err(Undone::Committed(Why::Store {
                failed: Failed::Refused(_),
                ..
            })) => {
                recover(&mut self.desk, &mut self.line, log)?;
                true
            }
            Err(why) => return Err(format!("committing: {why}")),
        };
        let told = Note::Told {
            transaction: number,
            done,
        };
        log.trace.note(log.who, told)
    }
}

/// A transaction is to write something on a card, upon what was read or not.
fn plan(
    random: &mut Random,
    transaction: &mut Transaction<Line, Noted>,
    early: &Result<Original, Failed<String>>,
    card: u16,
    text: &[u8],
) -> Result<(), AppendError<String>> {
    match (random.below(4), early) {
        (0, _) => transaction.write_original(card, text),
        (1, _) => transaction.write_both(card, text, &translated(FIRST, text)),
        (2, Ok(early)) if card == 0 => {
            transaction.write_translation(early, &translated(FIRST, early.text()))
        }
        _ => match (transaction.read_original(card), random.one_in(2)) {
            (Ok(original), true) => {
                transaction.write_translation(&original, &translated(FIRST, original.text()))
            }
            (Ok(original), false) => transaction.write_original(card, &edited(original.text())),
            (Err(_), _) => Ok(()),
        },
    }
}

/// Recovers from copies of a log and an image, as the desk would that starts again.
pub fn recover_copies(
    desk: u16,
    log: Vec<u8>,
    image: Vec<u8>,
) -> Result<(Vec<u8>, Vec<u8>), String> {
    let mut log = Log::check(log).map_err(|number| format!("the log is not good: {number}"))?;
    let mut image =
        lupaniele::Image::check(image).map_err(|why| format!("the image is not sound: {why}"))?;
    let mut desk = Desk::start(DeskId::new(desk, u16::MAX));
    let recovered = desk.recover(&mut image, &mut log);
    recovered.map_err(|why| format!("recovery: {why:?}"))?;
    Ok((log.into_bytes(), image.into_bytes()))
}
