//! The judge: replays the trace on the second program, answers, reply buffers, image and logs to their last byte, and
//! holds the whole list to demand 3's sentences and every text to what is meant (rule 16.2).

use std::collections::{BTreeMap, HashMap};

use compare::coverage::Run;
use compare::demand3::{self, Event};
use compare::proved;
use second::log::{Logged, Record};
use second::{append, read_back, recovery, Act, Command, Format, Language, Layout, Mark};

use crate::tally::{Counted, Tally};
use crate::texts::{made_from, translated};
use crate::town::{Town, LOG, ROOM};
use crate::trace::{Line, Note};

/// A command that was sent.
#[derive(Clone, Debug)]
struct Sent {
    by: (u16, u16),
    command: Vec<u8>,
    lent: usize,
}

/// What the second program makes of it.
struct Made {
    line: [u64; 8],
    image: Vec<u8>,
    reply: Vec<u8>,
}

/// What is under way in a log.
#[derive(Clone, Debug)]
enum Change {
    Append { kind: u8, body: Vec<u8> },
    Again,
}

/// A desk's log as it has to be.
#[derive(Clone, Debug)]
struct Book {
    bytes: Vec<u8>,
    /// The start under which somebody acts for the desk.
    start: Option<u16>,
    under_way: Option<Change>,
    recovering: bool,
}

/// What is so far.
pub struct Judge {
    cards: u16,
    format: Format,
    image: Vec<u8>,
    /// Sent, and not answered yet.
    under_way: Option<Sent>,
    list: Vec<Event>,
    logs: BTreeMap<u16, Book>,
    /// The texts of a store in which a commit is one step, by card and language.
    meant: HashMap<(u16, Language), Vec<u8>>,
    pub tally: Tally,
}

type Judged = Result<(), String>;

fn held(holds: bool, rule: &str) -> Judged {
    match holds {
        true => Ok(()),
        false => Err(rule.to_string()),
    }
}

/// Whether something of a log is due (rule 11.15).
pub fn something_due(log: &[u8]) -> bool {
    read_back(log).is_some_and(|read| {
        let records = &read.records;
        records
            .iter()
            .any(|logged| recovery::is_due(records, logged))
    })
}

impl Judge {
    pub fn new(town: &Town) -> Judge {
        let format = town.format();
        let layout = Layout::new(format, town.cards.into(), ROOM.into());
        let mut image = vec![0; layout.map_or(0, Layout::size)];
        format.make_fresh(&mut image, town.cards.into(), ROOM.into());
        Judge {
            cards: town.cards,
            format,
            image,
            under_way: None,
            list: Vec::new(),
            logs: BTreeMap::new(),
            meant: HashMap::new(),
            tally: Tally::default(),
        }
    }

    /// Hears a note.
    pub fn hear(&mut self, line: Line) -> Judged {
        let place = line.to_string();
        let told = |why: String| format!("{why}\nbroken where {place}");
        self.heard(line).map_err(told)
    }

    fn heard(&mut self, Line { desk, start, note }: Line) -> Judged {
        match note {
            Note::Sent {
                image,
                command,
                lent,
            } => {
                let lent = lent as usize;
                let by = (desk, start);
                self.sent(&image, Sent { by, command, lent })
            }
            Note::Answered { line, reply } => self.answered((desk, start), line, reply),
            Note::Opened { log, by } => self.opened(desk, start, by, log),
            Note::Begun { log } => self.begun(desk, start, log),
            Note::Appending { kind, body } => {
                self.changes(desk, start, Change::Append { kind, body })
            }
            Note::Beginning => {
                let due = something_due(&self.book(desk).bytes);
                held(!due, "16.18: a log begins again only when nothing is due")?;
                self.changes(desk, start, Change::Again)
            }
            Note::Appended { number } => self.appended(desk, number),
            Note::Recovered => self.recovered(desk),
            Note::Told { transaction, done } => self.told(desk, transaction, done),
        }
    }

    /// The image in the file, when everybody is gone.
    pub fn ended(&mut self, image: &[u8]) -> Judged {
        if let Some(sent) = self.under_way.take() {
            self.unheard(sent, image)?;
        }
        held(image == self.image, SAME_IMAGE)
    }
}

const SAME_IMAGE: &str =
    "4.4, 4.5: the image in the file is the one that the commands so far leave";

/// Commands and answers.
impl Judge {
    fn made(&self, sent: &Sent) -> Made {
        let (mut image, mut reply) = (self.image.clone(), vec![0; sent.lent]);
        let answer = self.format.answer(&mut image, &sent.command, &mut reply);
        let mut line = [answer.number.into(); 8];
        line[1..].copy_from_slice(&answer.fields.numbers());
        Made { line, image, reply }
    }

    fn sent(&mut self, image: &[u8], sent: Sent) -> Judged {
        if let Some(unheard) = self.under_way.take() {
            self.unheard(unheard, image)?;
        }
        held(image == self.image, SAME_IMAGE)?;
        self.under_way = Some(sent);
        Ok(())
    }

    /// Of a command without an answer, by the image that stands then: whether it happened.
    fn unheard(&mut self, sent: Sent, image: &[u8]) -> Judged {
        let made = self.made(&sent);
        if made.image == self.image {
            self.tally.count(Counted::Idle);
        } else if image == self.image {
            self.tally.count(Counted::Unsaved);
        } else {
            held(image == made.image, SAME_IMAGE)?;
            self.tally.count(Counted::Saved);
            self.happened(sent, made)?;
        }
        Ok(())
    }

    fn answered(&mut self, by: (u16, u16), line: [u64; 8], reply: Vec<u8>) -> Judged {
        let sent = self.under_way.take().filter(|sent| sent.by == by);
        let sent = sent.ok_or("one writer at a time: an answer to another desk's command")?;
        let made = self.made(&sent);
        held(line[0] == made.line[0], "4.1: the store's number")?;
        held(line == made.line, "4.8: the seven reply fields")?;
        let end = made.reply.iter().rposition(|byte| *byte != 0);
        let kept = &made.reply[..end.map_or(0, |last| last + 1)];
        held(reply == kept, "4.7: the reply buffer, to its last byte")?;
        self.happened(sent, made)
    }

    fn happened(&mut self, sent: Sent, made: Made) -> Judged {
        let [number, fields @ ..] = made.line;
        let number = number as u8;
        self.tally.count(Counted::Commands);
        match number {
            0 => self.tally.count(Counted::Accepted),
            3 => self.tally.count(Counted::Stale),
            4 => self.tally.count(Counted::Marked),
            6 => self.tally.count(Counted::Behind),
            _ => return Err(format!("desks by the rules never get {number}")),
        }
        let told = proved::Answer { number, fields };
        let lent = vec![0; sent.lent];
        let event = Event::new(self.format, &sent.command, lent, told, &made.reply);
        self.list.push(event);
        self.image = made.image;
        match number {
            0 => self.accepted(&sent.command, &made.reply[..fields[6] as usize]),
            _ => Ok(()),
        }
    }

    /// The whole list.
    pub fn keeps_the_sentences(&mut self) -> Judged {
        let mut run = Run::default();
        run.format = self.format;
        demand3::holds(self.cards, &self.list, &mut run)?;
        let pairs = demand3::isolated_outright(self.cards, &self.list)?;
        self.tally.add(Counted::Sentences, self.list.len() as u64);
        self.tally.add(Counted::Sessions, pairs as u64);
        Ok(())
    }
}

/// Texts.
impl Judge {
    fn meant(&self, card: u16, language: Language) -> &[u8] {
        self.meant.get(&(card, language)).map_or(&[], |text| text)
    }

    /// A text is meant from now on. An original that ends in a sign was made from the one that stands.
    fn means(&mut self, card: u16, language: Language, text: &[u8]) -> Judged {
        if language == Language::Original {
            let upon = made_from(text, self.meant(card, language));
            let holds = upon.is_none_or(|(made_from, before)| made_from == before);
            held(
                holds,
                "9.6: what was written upon what was read loses nobody's text",
            )?;
        }
        self.meant.insert((card, language), text.to_vec());
        Ok(())
    }

    fn accepted(&mut self, command: &[u8], shown: &[u8]) -> Judged {
        let command =
            Command::parse(self.format, command).ok_or("an accepted command is formed")?;
        let order = (command.expected, command.next) != (Mark::default(), Mark::default());
        match command.act {
            Act::Read(language) => self.shows(command.card, language, shown)?,
            Act::Write(_) if order => {}
            Act::Write(language) => self.means(command.card, language, command.payload)?,
            Act::Verify => {}
        }
        self.stands(command.card)
    }

    fn shows(&mut self, card: u16, language: Language, shown: &[u8]) -> Judged {
        self.tally.count(Counted::Shown);
        let rule = "16.12: an accepted read shows the text that is meant";
        held(shown == self.meant(card, language), rule)?;
        match language {
            Language::Original => Ok(()),
            Language::Translation(number) => {
                let current = shown == translated(number, self.meant(card, Language::Original));
                held(
                    current,
                    "16.20: a translation that is read is that of the original that stands",
                )
            }
        }
    }

    /// A card without a mark has the texts that are meant.
    fn stands(&mut self, card: u16) -> Judged {
        let layout = Layout::of_sound(self.format, &self.image).ok_or("2.6: the image is sound")?;
        let entry = layout.entry(&self.image, card);
        if entry.is_none_or(|entry| entry.mark != Mark::default()) {
            return Ok(());
        }
        self.tally.count(Counted::Stands);
        let mut languages = layout.languages();
        let holds = languages.all(|language| {
            layout.text(&self.image, card, language) == Some(self.meant(card, language))
        });
        let rule = "16.11: a card without a mark has the texts that are meant";
        held(holds, rule)
    }

    /// The card bears a mark of this desk.
    fn bears(&self, card: u16, desk: u16) -> bool {
        let layout = Layout::of_header(self.format, &self.image);
        let entry = layout.and_then(|layout| layout.entry(&self.image, card));
        entry.is_some_and(|entry| entry.mark.desk == desk)
    }
}

/// The language of a side of a log's update (rule 11.4).
fn language_of(side: u8) -> Language {
    match side {
        1 => Language::Original,
        _ => Language::Translation(0),
    }
}

/// Logs.
impl Judge {
    fn book(&mut self, desk: u16) -> &mut Book {
        self.logs.entry(desk).or_insert_with(|| Book {
            bytes: vec![0; LOG],
            start: None,
            under_way: None,
            recovering: false,
        })
    }

    fn opened(&mut self, desk: u16, start: u16, by: u16, log: Vec<u8>) -> Judged {
        self.reads_back(desk, log)?;
        let recovers = self.format == Format::V1;
        let book = self.book(desk);
        let cut = book.recovering;
        let rule = "10.9: a desk comes back under a start that it never had";
        held(book.start.is_none_or(|last| last < start), rule)?;
        book.start = Some(start);
        book.recovering = recovers;
        self.tally.count(Counted::Opened);
        self.tally.add(Counted::Recovering, u64::from(cut));
        let helped = recovers && by != desk && by != 0;
        self.tally.add(Counted::Helped, u64::from(helped));
        Ok(())
    }

    fn begun(&mut self, desk: u16, start: u16, log: Vec<u8>) -> Judged {
        self.tally.count(Counted::Again);
        let book = self.book(desk);
        let under_way = book.under_way.take();
        let held_here = book.start == Some(start) && matches!(under_way, Some(Change::Again));
        held(held_here, ONE_HOLDER)?;
        held(log == begun_again(&book.bytes), BEGINS_AGAIN)?;
        book.bytes = log;
        Ok(())
    }

    /// The log in the file is what was appended, with what was under way or without it.
    fn reads_back(&mut self, desk: u16, log: Vec<u8>) -> Judged {
        held(second::check(&log) == 0, "11.8: the log is good")?;
        let book = self.book(desk);
        let (before, change) = (book.bytes.clone(), book.under_way.take());
        book.bytes = log.clone();
        match change {
            None => held(log == before, "11.14: the log is what was appended"),
            Some(Change::Again) => {
                let begun = log != before;
                self.tally
                    .count([Counted::NotBegun, Counted::Begun][usize::from(begun)]);
                held(!begun || log == begun_again(&before), BEGINS_AGAIN)
            }
            Some(Change::Append { kind, body }) => {
                let mut after = before.clone();
                append(&mut after, kind, &body, u64::MAX);
                if log == after {
                    self.tally.count(Counted::Appended);
                    self.tally.add(Counted::CommitFound, u64::from(kind == 3));
                    return self.committed(desk, kind);
                }
                self.tally.count(Counted::NotAppended);
                let mut bytes = log.iter().zip(before.iter().zip(&after));
                let of_both = bytes.all(|(byte, (old, new))| byte == old || byte == new);
                let holds = of_both && log[0] == before[0] && log.len() == before.len();
                held(
                    holds,
                    "11.13: a log reads back as before the append or after it",
                )
            }
        }
    }

    fn changes(&mut self, desk: u16, start: u16, change: Change) -> Judged {
        let book = self.book(desk);
        held(
            book.start == Some(start) && book.under_way.is_none(),
            ONE_HOLDER,
        )?;
        book.under_way = Some(change);
        Ok(())
    }

    fn appended(&mut self, desk: u16, number: u8) -> Judged {
        self.tally.count(Counted::Appends);
        let book = self.book(desk);
        let Some(Change::Append { kind, body }) = book.under_way.take() else {
            return Err(ONE_HOLDER.to_string());
        };
        let made = append(&mut book.bytes, kind, &body, u64::MAX);
        held(number == made, "11.11: the number of an append")?;
        match number {
            0 => self.committed(desk, kind),
            _ => Ok(()),
        }
    }

    /// With a commit, the updates of its transaction are meant (rule 16.2).
    fn committed(&mut self, desk: u16, kind: u8) -> Judged {
        if kind != 3 {
            return Ok(());
        }
        let log = self.book(desk).bytes.clone();
        let records = read_back(&log).map(|read| read.records).unwrap_or_default();
        let last = records.last().map_or(0, |last| last.transaction);
        for Logged {
            record,
            transaction,
        } in records
        {
            match record {
                Record::Update { card, side, text } if transaction == last => {
                    held(
                        self.bears(card, desk),
                        "16.8: a card is held when it is committed",
                    )?;
                    self.means(card, language_of(side), text)?;
                }
                _ => {}
            }
        }
        Ok(())
    }

    fn recovered(&mut self, desk: u16) -> Judged {
        self.tally.count(Counted::Recovered);
        let book = self.book(desk);
        book.recovering = false;
        let due = something_due(&book.bytes);
        held(!due, "16.28: after a recovery nothing is due")?;
        for card in 0..self.cards {
            let bears = self.bears(card, desk);
            held(
                !bears,
                "16.28: after a recovery no card bears the desk's mark",
            )?;
            self.stands(card)?;
        }
        Ok(())
    }

    fn told(&mut self, desk: u16, transaction: u32, done: bool) -> Judged {
        self.tally
            .count([Counted::GivenUp, Counted::Done][usize::from(done)]);
        let log = self.book(desk).bytes.clone();
        let read = read_back(&log).ok_or("11.8: the log is good")?;
        let commit = Record::Commit(transaction);
        let committed = read.records.iter().any(|logged| logged.record == commit);
        held(
            committed == done,
            "16.2: what is told of a transaction is so",
        )?;
        held(
            !done || !something_due(&log),
            "16.28: what is done is written out",
        )
    }
}

const ONE_HOLDER: &str = "16.23: the log is held by one at a time";
const BEGINS_AGAIN: &str = "11.27: a log that begins again has no record but the last begin";

/// A log that begins again as the crate has it: empty, but for the begin of the last transaction.
fn begun_again(log: &[u8]) -> Vec<u8> {
    let records = read_back(log).map(|read| read.records).unwrap_or_default();
    let last = records.last().map_or(0, |last| last.transaction);
    let mut fresh = vec![0; log.len()];
    if last != 0 {
        append(&mut fresh, 1, &last.to_le_bytes(), u64::MAX);
    }
    fresh
}
