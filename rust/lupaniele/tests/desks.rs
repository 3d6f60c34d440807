//! Desks over a line that loses, delays and repeats commands, with logs that are cut at any store, going down and
//! starting again: what is accepted is what a store would show in which a commit is one step, sessions are isolated,
//! and in the end everything is finished.

use std::cell::RefCell;
use std::collections::{BTreeMap, BTreeSet};
use std::rc::Rc;

use lupaniele::desk::{
    Desk, Exclusive, Failed, Journal, Original, Refusal, Session, Shared, Store, Transaction,
    Undone, Why,
};
use lupaniele::{
    Action, Answer, AppendError, Command, DeskId, Image, Language, Log, Mark, Mode, Number, Pair,
    Queue, Record, Side, Stamp, Version,
};
use second::random::Random;

const CARDS: u16 = 3;
const DESKS: u16 = 3;
/// How many bytes of a text are kept when a sign is put behind it; with a `T` in front its translation fills the room.
const EDITED: usize = 14;
const DOWN: &str = "down";

/// The translation of a text, the text with a sign behind it.
fn translated(text: &[u8]) -> Vec<u8> {
    [b"T", text].concat()
}

fn edited(text: &[u8]) -> Vec<u8> {
    [&text[..text.len().min(EDITED)], b"+"].concat()
}

/// The texts of a store in which a commit is one step, and what was seen.
#[derive(Default)]
struct Seen {
    meant: BTreeMap<(u16, Side), Vec<u8>>,
    /// The accepted commands of each card: desk, mode and pair.
    accepted: BTreeMap<u16, Vec<(DeskId, Mode, Pair)>>,
    counts: BTreeMap<&'static str, u32>,
}

impl Seen {
    fn count(&mut self, what: &'static str) {
        *self.counts.entry(what).or_default() += 1;
    }

    /// An original is written. One that ends in a sign was made from the one that stands: nobody's is lost.
    fn originally(&mut self, card: u16, text: &[u8]) {
        if let Some((b'+', made_from)) = text.split_last() {
            let before = self.meant(card, Side::Original);
            assert_eq!(made_from, &before[..before.len().min(EDITED)]);
        }
        self.meant.insert((card, Side::Original), text.to_vec());
    }

    fn meant(&self, card: u16, side: Side) -> &[u8] {
        self.meant.get(&(card, side)).map_or(&[], |text| text)
    }

    /// Rule 9.6 of a new accepted command, by all before it.
    fn isolated(&mut self, card: u16, new: (DeskId, Mode, Pair)) {
        let before = self.accepted.entry(card).or_default();
        if let Some(at) = before.iter().rposition(|earlier| *earlier == new) {
            for (desk, mode, _) in &before[at..] {
                let disturbs =
                    *desk != new.0 && (*mode == Mode::Exclusive || new.1 == Mode::Exclusive);
                assert!(!disturbs, "{desk} came between two commands of {}", new.0);
            }
        }
        before.push(new);
    }

    /// What the store judged.
    fn judged(&mut self, image: &Image, bytes: &[u8], answer: &Answer, reply: &[u8]) {
        let command = Command::parse(Version::One, bytes).expect("a desk's command");
        assert!(answer.number != Number::Malformed && answer.number != Number::Unsound);
        if !answer.is_accepted() {
            return;
        }
        let pair = command.update_pair();
        let own = match command.mode {
            Mode::Shared => pair.s,
            Mode::Exclusive => pair.x,
        };
        self.isolated(command.card, (own.desk_id(), command.mode, pair));
        let (card, order) = (
            command.card,
            (command.expected, command.next) != (Mark::NONE, Mark::NONE),
        );
        match command.action {
            Action::ReadOriginal => {
                assert_eq!(answer.text(reply), self.meant(card, Side::Original))
            }
            Action::ReadTranslation(_) => {
                assert_eq!(answer.text(reply), self.meant(card, Side::Translation));
                assert_eq!(
                    answer.text(reply),
                    translated(self.meant(card, Side::Original))
                );
            }
            Action::WriteOriginal(text) if !order => self.originally(card, text),
            Action::WriteTranslation { text, .. } if !order => {
                self.meant.insert((card, Side::Translation), text.to_vec());
            }
            _ => {}
        }
        let stands = image.card(card).expect("a card that accepted");
        if stands.mark() == Mark::NONE {
            self.stands(image, card);
        }
    }

    /// A card has the texts that are meant.
    fn stands(&self, image: &Image, card: u16) {
        let stands = image.card(card).expect("a card");
        assert_eq!(stands.original(), self.meant(card, Side::Original));
        let translation = stands.translation(Language::First);
        assert_eq!(translation, Some(self.meant(card, Side::Translation)));
    }
}

/// The line to the store.
struct Line {
    image: Image,
    seen: Rc<RefCell<Seen>>,
    random: Random,
    faults: bool,
    /// After so many commands the desk goes down.
    left: u32,
    under_way: Vec<Vec<u8>>,
    /// One more desk, which comes between any two commands; none while it does.
    rival: Option<Desk>,
}

impl Line {
    fn deliver(&mut self, command: &[u8], reply: &mut [u8]) -> Answer {
        let answer = self.image.answer_bytes(command, reply);
        let mut seen = self.seen.borrow_mut();
        seen.judged(&self.image, command, &answer, reply);
        answer
    }

    /// Some that were delayed arrive, and nobody waits for their answers.
    fn arrivals(&mut self) {
        while !self.under_way.is_empty() && self.random.one_in(3) {
            let at = self.random.index(self.under_way.len());
            let command = self.under_way.swap_remove(at);
            let _ = self.deliver(&command, &mut [0; 1_024]);
        }
    }
}

impl Line {
    /// The rival reads or writes, now and then.
    fn rival(&mut self) {
        let Some(mut rival) = self.rival.take() else {
            return;
        };
        while self.random.one_in(4) {
            let card = self.random.below(CARDS.into()) as u16;
            let text = [b'r', b'0' + self.random.below(10) as u8];
            self.faults = false;
            let _ = match self.random.one_in(2) {
                true => rival.write_original(self, card, &text).is_ok(),
                false => rival.read_original(self, card).is_ok(),
            };
            self.faults = true;
        }
        self.rival = Some(rival);
    }
}

impl Store for Line {
    type Error = &'static str;

    fn version(&self) -> Version {
        Version::One
    }

    fn room(&self) -> u16 {
        self.image.room()
    }

    fn send(&mut self, command: &[u8], reply: &mut [u8]) -> Result<Answer, &'static str> {
        if !self.faults {
            return Ok(self.deliver(command, reply));
        }
        if self.left == 0 {
            return Err(DOWN);
        }
        self.left -= 1;
        self.arrivals();
        self.rival();
        match self.random.below(24) {
            0 => Err("lost on the way"),
            1 => {
                self.under_way.push(command.to_vec());
                Err("delayed")
            }
            2 => {
                let _ = self.deliver(command, reply);
                Err("the answer is lost")
            }
            3 => {
                self.under_way.push(command.to_vec());
                Ok(self.deliver(command, reply))
            }
            _ => Ok(self.deliver(command, reply)),
        }
    }
}

/// A desk's log, and how many stores of one byte are left until it goes down.
struct Disk {
    log: Log,
    left: u64,
    seen: Rc<RefCell<Seen>>,
}

impl Disk {
    /// The texts of a transaction are meant from its commit on.
    fn committed(&self, transaction: u32) {
        let mut seen = self.seen.borrow_mut();
        seen.count("committed");
        let mut open = 0;
        for record in self.log.records() {
            match record {
                Record::Begin(number) => open = number,
                Record::Update { card, side, text } if open == transaction => match side {
                    Side::Original => seen.originally(card, text),
                    Side::Translation => {
                        seen.meant.insert((card, side), text.to_vec());
                    }
                },
                _ => {}
            }
        }
    }
}

impl Journal for Disk {
    type Error = &'static str;

    fn log(&self) -> &[u8] {
        self.log.bytes()
    }

    fn append(&mut self, record: &Record) -> Result<(), AppendError<&'static str>> {
        let needed = record.body().len() as u64 + 12;
        let number = self.log.append_cut(record, self.left);
        match number {
            Number::Accepted => {}
            Number::AppendCut => {
                self.left = 0;
                return Err(AppendError::Unknown(DOWN));
            }
            refused => return Err(AppendError::Refused(refused)),
        }
        if let Record::Commit(transaction) = record {
            self.committed(*transaction);
        }
        self.left -= needed;
        match self.left {
            0 => Err(AppendError::Unknown(DOWN)), // kept, and nobody was told
            _ => Ok(()),
        }
    }
}

/// A transaction is to write something on a card, upon what was read or not.
fn plan(
    random: &mut Random,
    transaction: &mut Transaction<Line, Disk>,
    early: &Result<Original, Failed<&'static str>>,
    card: u16,
    text: &[u8],
) -> Result<(), AppendError<&'static str>> {
    match (random.below(4), &early) {
        (0, _) => transaction.write_original(card, text),
        (1, _) => transaction.write_both(card, text, &translated(text)),
        (2, Ok(early)) if card == 0 => {
            transaction.write_translation(early, &translated(early.text()))
        }
        _ => match (transaction.read_original(card), random.one_in(2)) {
            (Ok(original), true) => {
                transaction.write_translation(&original, &translated(original.text()))
            }
            (Ok(original), false) => transaction.write_original(card, &edited(original.text())),
            (Err(_), _) => Ok(()),
        },
    }
}

struct Town {
    line: Line,
    seen: Rc<RefCell<Seen>>,
    desks: Vec<(Desk, Disk)>,
    queues: Vec<Queue>,
    random: Random,
    texts: u32,
}

impl Town {
    fn new(seed: u64) -> Town {
        let seen = Rc::new(RefCell::new(Seen::default()));
        let line = Line {
            image: Image::make(Version::One, CARDS, 16).expect("an image of this shape"),
            seen: seen.clone(),
            random: Random::new(seed),
            faults: true,
            left: u32::MAX,
            under_way: Vec::new(),
            rival: Some(Desk::start(DeskId::new(DESKS + 1, 0))),
        };
        let desks = (1..=DESKS).map(|desk| {
            let log = Log::empty(16_384).expect("a log of this length");
            let (left, seen) = (u64::MAX, seen.clone());
            (
                Desk::start(DeskId::new(desk, 0)).trying(3),
                Disk { log, left, seen },
            )
        });
        Town {
            line,
            desks: desks.collect(),
            queues: vec![Queue::new(2).expect("a queue of two places"); CARDS.into()],
            random: Random::new(seed ^ 0x5555),
            texts: 0,
            seen,
        }
    }

    fn text(&mut self) -> Vec<u8> {
        self.texts += 1;
        format!("{}", self.texts).into_bytes()
    }

    fn count(&self, what: &'static str) {
        self.seen.borrow_mut().count(what);
    }

    /// A desk does something; whether it has to start again.
    fn step(&mut self, at: usize) -> bool {
        let card = self.random.below(CARDS.into()) as u16;
        let text = self.text();
        let what = self.random.below(8);
        if self.random.one_in(10) {
            self.line.left = self.random.below(12) as u32;
            self.desks[at].1.left = [u64::MAX, self.random.below(120)][self.random.index(2)];
        }
        let (desk, _) = &mut self.desks[at];
        let done = match what {
            0 => desk.read_original(&mut self.line, card).map(|_| ()),
            1 => desk.write_original(&mut self.line, card, &text).map(|_| ()),
            2 => self.translate(at, card),
            3 => self.edit(at, card),
            4 => {
                let language = Language::First;
                desk.read_translation(&mut self.line, card, language)
                    .map(|_| ())
            }
            5 => return self.lock(at, card),
            _ => return self.change(at),
        };
        match done {
            Ok(()) => self.count("done"),
            Err(Failed::Refused(Refusal::Stale { tries })) => {
                assert_eq!(tries, 3);
                self.count("stale");
            }
            Err(Failed::Refused(Refusal::Marked(_))) => self.count("marked"),
            Err(Failed::Refused(Refusal::Behind { .. })) => self.count("behind"),
            Err(Failed::Transport(why)) => {
                self.count("no answer");
                return why == DOWN;
            }
            Err(why) => panic!("{why}"),
        }
        false
    }

    /// Reads, and upgrades to write the translation of what was read.
    fn translate(&mut self, at: usize, card: u16) -> Result<(), Failed<&'static str>> {
        let (desk, _) = &mut self.desks[at];
        desk.session(&mut self.line, card, |mut session: Session<_, Shared>| {
            let original = session.read_original()?;
            if original.edition() == 0 {
                return Ok(());
            }
            let text = translated(original.text());
            session
                .upgrade()?
                .write_translation(&original, Language::First, &text)
        })
    }

    /// Puts a sign behind an original: nobody comes between, whether it was read in the same session or in one that is
    /// upgraded.
    fn edit(&mut self, at: usize, card: u16) -> Result<(), Failed<&'static str>> {
        let (desk, _) = &mut self.desks[at];
        let written = match self.random.one_in(2) {
            true => desk.session(
                &mut self.line,
                card,
                |mut session: Session<_, Exclusive>| {
                    let text = edited(session.read_original()?.text());
                    session.write_original(&text)
                },
            ),
            false => desk.session(&mut self.line, card, |mut session: Session<_, Shared>| {
                let text = edited(session.read_original()?.text());
                session.upgrade()?.write_original(&text)
            }),
        };
        written.map(|_| ())
    }

    fn lock(&mut self, at: usize, card: u16) -> bool {
        let (desk, _) = &mut self.desks[at];
        let mode = [Mode::Shared, Mode::Exclusive][self.random.index(2)];
        let told = match self.random.below(2) {
            0 => desk.ask(&mut self.queues[..], card, mode),
            _ => desk.leave(&mut self.queues[..], card),
        };
        let answer = told.expect("the queues are here");
        assert!(
            ![Number::Malformed, Number::BadQueue, Number::PairDenied].contains(&answer.number)
        );
        false
    }

    /// Changes several cards at once.
    fn change(&mut self, at: usize) -> bool {
        let texts = [self.text(), self.text()];
        let cards: BTreeSet<u16> = (0..2)
            .map(|_| self.random.below(CARDS.into()) as u16)
            .collect();
        let (desk, disk) = &mut self.desks[at];
        if disk.log.count() > 150 {
            return self.new_log(at);
        }
        // Read before it begins: it may be changed by then.
        let early = desk.read_original(&mut self.line, 0);
        let mut transaction = match desk.transaction(&mut self.line, disk) {
            Ok(transaction) => transaction,
            Err(_) => return true,
        };
        for (card, text) in cards.iter().zip(&texts) {
            if plan(&mut self.random, &mut transaction, &early, *card, text).is_err() {
                return true;
            }
        }
        match transaction.commit() {
            Ok(()) => self.count("changed"),
            Err(Undone::Aborted(_)) => self.count("aborted"),
            Err(Undone::Committed(_)) => self.count("committed, not written"),
            Err(Undone::Unknown(_)) => self.count("unknown"),
        }
        self.line.left == 0 || self.random.one_in(4)
    }

    /// A log that is nearly full begins again when nothing of it is due; that is when a recovery is through.
    fn new_log(&mut self, at: usize) -> bool {
        self.restart(at);
        let (_, disk) = &mut self.desks[at];
        disk.log = Log::empty(16_384).expect("a log of this length");
        false
    }

    /// A desk goes down, starts again, and recovers.
    fn restart(&mut self, at: usize) {
        self.count("restarted");
        let faults = self.random.below(2) == 0;
        for start in 1.. {
            let (desk, disk) = &mut self.desks[at];
            let DeskId {
                desk: number,
                start: last,
            } = desk.id();
            *desk = Desk::start(DeskId::new(number, last + 1)).trying(3);
            self.line.faults = faults && start < 5;
            self.line.left = self.random.below(12) as u32;
            disk.left =
                [u64::MAX, self.random.below(60)][usize::from(self.line.faults && start % 2 == 0)];
            let recovered = desk.recover(&mut self.line, disk);
            disk.left = u64::MAX;
            if let Ok(recovered) = recovered {
                if recovered.synced > 0 {
                    let what = ["synced without a write", "written by recovery"];
                    self.count(what[usize::from(recovered.written > 0)]);
                }
                break;
            }
            self.count("recovery cut");
        }
        (self.line.faults, self.line.left) = (true, u32::MAX);
    }

    /// Everything arrives, every desk recovers, and the store is what is meant.
    fn finish(mut self) -> BTreeMap<&'static str, u32> {
        self.line.faults = false;
        while let Some(command) = self.line.under_way.pop() {
            let _ = self.line.deliver(&command, &mut [0; 1_024]);
        }
        for (desk, disk) in &mut self.desks {
            let DeskId {
                desk: number,
                start,
            } = desk.id();
            let mut desk = Desk::start(DeskId::new(number, start + 1));
            disk.left = u64::MAX;
            desk.recover(&mut self.line, disk)
                .expect("nothing is in the way");
        }
        let seen = self.seen.borrow();
        for card in self.line.image.cards() {
            assert_eq!(card.mark().desk, 0, "card {}", card.number());
            seen.stands(&self.line.image, card.number());
        }
        seen.counts.clone()
    }
}

fn run(seed: u64, steps: u32, counts: &mut BTreeMap<&'static str, u32>) {
    let mut town = Town::new(seed);
    for _ in 0..steps {
        let at = town.random.index(DESKS.into());
        if town.step(at) {
            town.restart(at);
        }
        (town.line.left, town.desks[at].1.left) = (u32::MAX, u64::MAX);
    }
    for (what, count) in town.finish() {
        *counts.entry(what).or_default() += count;
    }
}

#[test]
fn desks_keep_the_rules_whatever_is_cut() {
    let mut counts = BTreeMap::new();
    for seed in 0..300 {
        run(seed, 150, &mut counts);
    }
    println!("{counts:?}");
    let all = [
        "done",
        "stale",
        "marked",
        "behind",
        "no answer",
        "changed",
        "aborted",
        "committed",
        "committed, not written",
        "unknown",
        "restarted",
        "recovery cut",
        "synced without a write",
        "written by recovery",
    ];
    for what in all {
        assert!(
            counts.get(what).is_some_and(|count| *count > 10),
            "{what}: {counts:?}"
        );
    }
}

/// A log of records as they come.
fn random_log(random: &mut Random) -> Log {
    let mut log = Log::empty(4_096).expect("a log of this length");
    let mut begun = 0;
    for _ in 0..random.below(14) {
        let (card, transaction) = (random.below(2) as u16, random.below(4) as u32);
        let text = random.bytes(3);
        let side = [Side::Original, Side::Translation][random.index(2)];
        let record = match random.below(5) {
            0 => Record::Begin(begun + 1),
            1 => Record::Commit(begun),
            2 => Record::Synced { card, transaction },
            _ => Record::Update {
                card,
                side,
                text: &text,
            },
        };
        if log.append(&record).is_ok() && record.kind() == 1 {
            begun += 1;
        }
    }
    log
}

/// A desk writes what the store's own recovery writes: on random logs, with every card under the desk's mark.
#[test]
fn what_is_due_is_what_recovery_writes() {
    let (mut random, mut written) = (Random::new(7), 0);
    for _ in 0..20_000 {
        let mut log = random_log(&mut random);
        let mut image = Image::make(Version::One, 2, 16).expect("an image of this shape");
        let pair = Pair::new(Stamp::NONE, Stamp::new(1, 1, 0));
        for card in 0..2 {
            // An original, so that translations can be written, and the desk's mark.
            let write = Command::write_original(card, b"first")
                .exclusive(pair)
                .leaving(Mark::new(1, 1));
            assert!(
                image
                    .answer(&write, &mut [])
                    .is_ok_and(|answer| answer.is_accepted())
            );
        }
        let mut other = image.clone();
        assert_eq!(log.recover(&mut other, &[pair; 2]), Ok(()));
        let recovered = Desk::start(DeskId::new(1, 1)).recover(&mut image, &mut log);
        written += recovered.expect("nothing is in the way").written;
        for (one, another) in image.cards().zip(other.cards()) {
            assert_eq!(one.original(), another.original());
            assert_eq!(
                one.translation(Language::First),
                another.translation(Language::First)
            );
            assert_eq!(one.edition(), another.edition());
        }
    }
    assert!(written > 1_000);
}

/// There are no logs for version 2, so there are no transactions on it.
#[test]
fn no_transactions_on_version_2() {
    let mut store = Image::make(Version::Two, 1, 16).expect("an image of this shape");
    let mut log = Log::empty(4_096).expect("a log of this length");
    let mut desk = Desk::start(DeskId::new(1, 0));
    let refused = desk.transaction(&mut store, &mut log).map(|_| ());
    assert_eq!(refused, Err(Undone::Aborted(Why::Version)));
    let refused = desk.recover(&mut store, &mut log);
    assert_eq!(refused, Err(Undone::Committed(Why::Version)));
    assert_eq!(log.count(), 0);
}
