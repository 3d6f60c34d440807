//! What desks do: they propose, ask, send, listen, show, fall silent, crash
//! and come back.

use lupaniele::DeskId;
use second::{CommandFields, Format, Mark, Pair};
use story::Scene;

use super::post::Body;
use super::voters::Vote;
use super::{Shape, Town};
use crate::checks::desk::shown;
use crate::checks::log::Update;
use crate::checks::Checked;
use crate::library::{Answer, Held, Library};
use crate::rule::Rule;
use crate::tally::{Fault, Operation, Step};

/// How a desk is.
#[derive(Clone, Copy, Debug, PartialEq, Eq)]
pub enum State {
    /// It works.
    Up,
    /// It is not heard of, but it knows what it knew.
    Silent,
    /// It crashed.
    Down,
}

/// What a desk has of one card.
#[derive(Clone, Debug, Default)]
pub struct AtCard {
    /// The last pair that it proposed, shared and exclusive.
    pub open: [Option<Pair>; 2],
    /// The mark that it heard of last.
    pub mark: Mark,
    /// The edition of the original that it holds.
    pub read: u16,
    /// Whether it stands in the queue, and whether it holds the lock, as far as
    /// it knows.
    pub stands: bool,
    /// See [`AtCard::stands`].
    pub holds: bool,
    /// What it has at each lock manager.
    pub votes: Vec<Vote>,
    /// What it holds of the card's texts.
    pub held: Held,
}

impl AtCard {
    /// The edition that a translation names: that of the original which the desk
    /// has read, where it read one. One that is careless names the edition that
    /// it heard of last.
    fn named(&self, careless: bool) -> u16 {
        match self.read {
            0 => self.held.edition,
            _ if careless => self.held.edition,
            read => read,
        }
    }
}

/// A desk.
#[derive(Clone, Debug)]
pub struct Desk {
    /// Its number and start.
    pub who: DeskId,
    /// How it is.
    pub state: State,
    /// What it knows of each card, and of one that is not in the store.
    pub known: Vec<[u64; 2]>,
    /// What it has of each card.
    pub at: Vec<AtCard>,
    /// Its redo log, which outlives it.
    pub log: Vec<u8>,
    /// The transaction that it began last.
    pub transaction: u32,
    /// Whether that is open, and how many updates it has.
    pub open: Option<usize>,
    /// The updates that are due, from its log.
    pub due: Vec<Update>,
    /// Cards and transactions that are written, and not yet logged as synced.
    pub written: Vec<(u16, u32)>,
    /// Whether it was cut off in an append or a recovery.
    pub cut: bool,
    /// The version that it takes the store to be of.
    pub version: Format,
    /// The language that it works in, where there are several.
    pub language: u8,
}

impl Desk {
    pub(super) fn new(who: DeskId, shape: Shape) -> Desk {
        let held = Held {
            buffers: [vec![0; shape.room], vec![0; shape.room]],
            ..Held::default()
        };
        let at = AtCard {
            held,
            votes: vec![Vote::default(); shape.managers],
            ..AtCard::default()
        };
        Desk {
            who,
            state: State::Up,
            known: vec![[0; 2]; shape.cards + 1],
            at: vec![at; shape.cards + 1],
            log: vec![0; shape.log],
            transaction: 0,
            open: None,
            due: Vec::new(),
            written: Vec::new(),
            cut: false,
            version: shape.versions.opening(),
            language: (who.desk % 4) as u8,
        }
    }

    pub(super) fn is_up(&self) -> bool {
        self.state == State::Up
    }
}

impl<L: Library> Town<'_, L> {
    /// A desk that is drawn does something.
    pub(super) fn act(&mut self) -> Checked {
        let at = self.random.index(self.desks.len());
        let card = self.card();
        let state = self.desks[at].state;
        match state {
            State::Down => self.come_back(at),
            State::Silent => {
                if self.one_in(12) {
                    self.desks[at].state = State::Up;
                }
                match self.one_in(4) {
                    true => self.speak_late(at, card),
                    false => Ok(()),
                }
            }
            State::Up if self.one_in(80) => self.crash(at),
            State::Up if self.one_in(80) => {
                self.desks[at].state = State::Silent;
                self.tally.fault(Fault::Silent);
                let who = self.desks[at].who;
                self.tell(|| Scene::Silent { desk: who });
                Ok(())
            }
            State::Up if self.one_in(200) => {
                self.far_clock(at);
                Ok(())
            }
            State::Up if self.shape.versions.converts() && self.one_in(100) => {
                self.hears_of_conversion(at);
                Ok(())
            }
            State::Up => self.work(at, card),
        }
    }

    fn work(&mut self, at: usize, card: usize) -> Checked {
        if self.shape.transacting && (!self.one_in(4) || self.busy(at, card)) {
            return self.tend(at);
        }
        let waits = self.waits(at, card);
        match self.random.below(20) {
            0..=1 => self.ask(at, card),
            2..=3 if !waits => self.open_inside(at, card),
            4..=12 if waits => self.ask(at, card),
            4..=12 => self.command(at, card),
            13 => self.leave(at, card),
            14..=18 => self.log_work(at, card),
            _ if self.one_in(2) => self.compare(at, card),
            _ => self.show(at, card),
        }
    }

    /// Whether a desk waits for the lock before it sends anything.
    pub(super) fn waits(&mut self, at: usize, card: usize) -> bool {
        let holds = self.desks[at].at[card].holds;
        self.shape.polite && !holds && !self.one_in(20)
    }

    /// A desk goes down, and forgets all but its log.
    pub(super) fn crash(&mut self, at: usize) -> Checked {
        self.desks[at].state = State::Down;
        self.tally.fault(Fault::Crash);
        let who = self.desks[at].who;
        self.tell(|| Scene::Down { desk: who });
        Ok(())
    }

    /// A desk comes back under a start number that it never had, knows nothing,
    /// and reads its log.
    fn come_back(&mut self, at: usize) -> Checked {
        self.tally.step(Step::Return);
        if !self.one_in(3) {
            return Ok(());
        }
        let old = &self.desks[at];
        let mut who = old.who;
        if self.rule != Some(Rule::StartAgain) {
            let Some(start) = who.start.checked_add(1) else {
                return Ok(());
            };
            who.start = start;
        }
        let desk = Desk {
            log: std::mem::take(&mut self.desks[at].log),
            transaction: self.desks[at].transaction,
            cut: self.desks[at].cut,
            version: self.store.format,
            ..Desk::new(who, self.shape)
        };
        self.desks[at] = desk;
        self.tally.fault(Fault::NewStart);
        self.knew_something(at);
        self.tell(|| Scene::Started { desk: who });
        self.after_start(at)
    }

    /// A desk leaves a queue, whether it stands there or not, and has done with
    /// its sessions.
    fn leave(&mut self, at: usize, card: usize) -> Checked {
        let have = &mut self.desks[at].at[card];
        (have.stands, have.holds, have.open) = (false, false, [None; 2]);
        self.leave_voters(at, card);
        Ok(())
    }

    /// A desk proposes, and asks in the queue; or, where it stands and does not
    /// hold the lock, it asks again under its pair, to hear whether it does.
    pub(super) fn ask(&mut self, at: usize, card: usize) -> Checked {
        let mode = self.random.pick(&[1, 1, 2]);
        let have = &self.desks[at].at[card];
        let standing = have.open[usize::from(mode) - 1].filter(|_| have.stands && !have.holds);
        if let Some(pair) = standing {
            self.ask_again(at, card, mode, pair);
            return Ok(());
        }
        let Some(pair) = self.propose(at, card, mode)? else {
            return Ok(());
        };
        let mode = if self.one_in(40) { 3 } else { mode };
        self.ask_voters(at, card, mode, pair);
        Ok(())
    }

    /// A desk opens a session inside its first command: the verifier is what it
    /// knew, or nothing, and the update pair is what it proposes.
    fn open_inside(&mut self, at: usize, card: usize) -> Checked {
        let mode = self.random.pick(&[1, 2]);
        let [s, x] = self.desks[at].known[card];
        let Some(pair) = self.propose(at, card, mode)? else {
            return Ok(());
        };
        let verifier = match self.one_in(4) {
            true => Pair::default(),
            false => Pair::new(s, x),
        };
        self.command_under(at, card, (mode, verifier, pair), None)
    }

    /// A desk that is out of touch sends what it has to send all the same.
    fn speak_late(&mut self, at: usize, card: usize) -> Checked {
        self.command(at, card)
    }

    /// A desk sends a command or more under a pair that it has for the card.
    fn command(&mut self, at: usize, card: usize) -> Checked {
        let mode = match self.desks[at].at[card].open {
            [None, None] => return self.ask(at, card),
            [Some(_), None] => 1,
            [None, Some(_)] => 2,
            _ => self.random.pick(&[1, 2]),
        };
        let pair = self.desks[at].at[card].open[usize::from(mode) - 1].unwrap_or_default();
        let more = self.random.between(1, 3);
        (0..more).try_for_each(|_| self.command_under(at, card, (mode, pair, pair), None))
    }

    /// A command under a pair is sent: the write of an update, or one of some
    /// act.
    pub(super) fn command_under(
        &mut self,
        at: usize,
        card: usize,
        (mode, verifier, update): (u8, Pair, Pair),
        write: Option<&Update>,
    ) -> Checked {
        self.tally.step(Step::Send);
        let mut fields = self.command_fields(at, card, mode, write);
        (fields.pair, fields.update) = (verifier, update);
        if verifier == update && !self.one_in(4) {
            fields.update = Pair::default();
        }
        self.wrong_command(&mut fields, update);
        self.in_version(at, &mut fields, write.is_some());
        self.plain_marks(at, card, &mut fields);
        let payload = match write {
            Some(write) => write.text.clone(),
            None => self.text_of(at, card, &fields),
        };
        let lent = if self.one_in(8) { 2 } else { self.shape.room };
        let mut bytes = fields.with_payload(&payload);
        self.malform(fields.format, &mut bytes);
        let line = write.map(|write| write.line);
        let card = usize::from(fields.card).min(self.shape.cards - 1);
        let line = line.or_else(|| self.look_sent(at, card));
        self.send(at, card, Body::command(fields.format, bytes, lent, line));
        Ok(())
    }

    /// The numbers of a command but for its pairs, as far as the desk knows.
    fn command_fields(
        &mut self,
        at: usize,
        card: usize,
        mode: u8,
        write: Option<&Update>,
    ) -> CommandFields {
        let act = match mode {
            1 => self.random.pick(&[1, 2, 2, 5]),
            _ => self.random.pick(&[1, 2, 3, 3, 4, 4, 5]),
        };
        let act = write.map_or(act, |write| 2 + write.side);
        let desk = &self.desks[at];
        let (have, who) = (&desk.at[card], desk.who);
        let next = |write: &Update| Mark::new(who.desk, write.transaction);
        CommandFields {
            act,
            mode,
            card: card as u16,
            expected: have.mark,
            next: write.map_or(have.mark, next),
            edition: if act == 4 {
                have.named(self.shape.careless)
            } else {
                0
            },
            ..CommandFields::default()
        }
    }

    /// A command as a desk sends it that breaks a rule.
    fn wrong_command(&mut self, fields: &mut CommandFields, pair: Pair) {
        if self.one_in(60) && self.rule.is_none() {
            fields.card = self.shape.cards as u16 + self.random.below(2) as u16;
        }
        if self.breaks(Rule::OtherCard) {
            fields.card = self.card() as u16;
        }
        if self.breaks(Rule::OtherMode) {
            fields.mode = 3 - fields.mode;
            (fields.act, fields.edition) = (5, 0);
        }
        if self.breaks(Rule::NeverProposed) {
            let near = |stamp: u64, by: u64| (stamp >> 32).saturating_sub(by) << 32;
            let desk = 1 + self.random.below(self.shape.desks as u64);
            let by = self.random.below(3);
            let s = near(pair.s, by) | desk << 16;
            let x = near(pair.x, self.random.below(3)) | desk << 16;
            fields.pair = Pair::new(s, x);
            fields.update = Pair::default();
        }
    }

    /// Now and then a command is no command: bytes that are too few, an act, a
    /// mode or a mark that is none, an update pair below the verifier.
    fn malform(&mut self, format: Format, bytes: &mut Vec<u8>) {
        if !self.one_in(40) {
            return;
        }
        if format == Format::V2 && self.one_in(2) {
            return self.malform_language(bytes);
        }
        let (s, x) = (format.update_at(), format.update_at() + 8);
        match self.random.below(5) {
            4 if bytes[4..12] != [0; 8] && bytes[x..x + 8] != [0; 8] => bytes[s..x].fill(0),
            0 => bytes.truncate(self.random.index(52)),
            1 => bytes[0] = self.random.pick(&[0, 6, 255]),
            2 => bytes[1] = self.random.pick(&[0, 3]),
            _ => bytes[36..42].copy_from_slice(&[1, 0, 0, 0, 0, 0]),
        }
    }

    /// A text: a drop in degrees, or a structured text; now and then none, one
    /// that just fits, or one that is too long.
    pub(super) fn some_text(&mut self) -> Vec<u8> {
        if self.one_in(40) {
            return vec![b'!'; self.shape.room + 1];
        }
        if self.one_in(40) {
            return Vec::new();
        }
        if self.one_in(40) {
            return vec![b'='; self.shape.room];
        }
        if self.one_in(2) {
            return self.structured();
        }
        let degrees = 180 + self.random.below(60);
        format!("{degrees} C").into_bytes()
    }

    /// A desk hears an answer: mostly the desk that it is for, if it is still
    /// there, now and then another one.
    pub(super) fn hears(&mut self, desk: usize, who: DeskId, card: usize, told: Body) -> Checked {
        let elsewhere = self.one_in(12);
        let at = match elsewhere {
            true => self.random.index(self.desks.len()),
            false => desk,
        };
        let meant = at == desk && self.desks[at].who == who;
        if !self.desks[at].is_up() || !meant && !elsewhere {
            return Ok(());
        }
        self.tally.fault_if(!meant, Fault::Elsewhere);
        let pair = match &told {
            Body::Stands(_, _, _, _, pair, _) => *pair,
            Body::Told(_, _, answer, _) => Pair::new(answer.fields[0], answer.fields[1]),
            _ => Pair::default(),
        };
        self.learn(at, card, pair)?;
        if let (true, Body::Told(_, id, answer, _)) = (meant, &told) {
            self.followed(at, card, *id, answer)?;
        }
        match told {
            _ if !meant => {}
            Body::Stands(manager, mode, number, holds, _, accepted) => {
                let vote = Vote {
                    asked: true,
                    stands: matches!(number, 0 | 12) && mode != 0,
                    holds,
                    denied: (number == 11).then_some(accepted),
                };
                self.voted(at, card, (manager, mode), vote);
            }
            Body::Told(_, _, answer, _) if answer.number == 17 && self.one_in(2) => {
                // Someone sets the clock right, and starts the desk again.
                return self.crash(at);
            }
            Body::Told(asked, line, answer, text) => {
                self.note(at, card, (asked, line), answer, &text);
            }
            _ => {}
        }
        Ok(())
    }

    /// A desk notes the store's answer to its own command.
    fn note(
        &mut self,
        at: usize,
        card: usize,
        ((act, language), line): ((u8, u8), Option<u64>),
        answer: Answer,
        text: &[u8],
    ) {
        if answer.number == 9 {
            self.looks_at_version(at);
        }
        if matches!(answer.number, 1 | 2 | 9) {
            return;
        }
        let [_, _, mark, transaction, edition, from, length] = answer.fields;
        let own = self.desks[at].version == Format::V1 || self.desks[at].language == language;
        let have = &mut self.desks[at].at[card];
        have.mark = Mark::new(mark as u16, transaction as u32);
        have.held.edition = edition as u16;
        if own {
            have.held.from = from as u16;
        }
        if answer.number == 3 {
            (have.open, have.holds) = ([None; 2], false);
            have.votes.iter_mut().for_each(|vote| vote.holds = false);
        }
        if answer.number == 0 && (act == 1 || act == 2 && own) {
            let held = usize::from(act) - 1;
            have.held.lengths[held] = length;
            have.held.buffers[held][..text.len()].copy_from_slice(text);
            if act == 1 {
                have.read = edition as u16;
            }
        }
        if answer.number == 0 {
            self.wrote(at, line);
        }
    }

    /// A desk shows a text of a card from its own buffers.
    fn show(&mut self, at: usize, card: usize) -> Checked {
        self.tally.step(Step::Show);
        let asked = self.random.pick(&[0, 1, 1, 1]);
        let held = &self.desks[at].at[card].held;
        let answer = self.library.shown(held, asked);
        self.tally.number(Operation::Shown, answer.0);
        shown(&mut self.tally.made, held, asked, answer)
    }
}
