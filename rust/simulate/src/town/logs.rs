//! Desks and their logs: transactions, power cuts inside an append, recovery
//! and power cuts inside recovery.

use std::collections::BTreeSet;

use second::{CommandFields, Pair};
use story::Scene;

use super::Town;
use crate::checks::log::{checked, due, read, Update, BEGIN, COMMIT, SYNCED, UPDATE};
use crate::checks::recovery::{self, Recovery};
use crate::checks::{Check, Checked};
use crate::library::Library;
use crate::scenes;
use crate::tally::{Fault, Operation, Step};

/// A budget that is enough for any append.
const ALL: u64 = 1 << 20;

impl<L: Library> Town<'_, L> {
    /// A desk appends a record, and the power may be cut at any store of it.
    /// Whether the record stands.
    pub(super) fn append(&mut self, at: usize, kind: u8, body: &[u8]) -> Checked<bool> {
        self.tally.step(Step::Log);
        let whole = body.len() as u64 + 12;
        let cut = self.one_in(25).then(|| self.random.below(whole));
        let stores = cut.unwrap_or(ALL);
        let desk = &mut self.desks[at];
        let before = desk.log.clone();
        let number = self.library.append(&mut desk.log, kind, body, stores);
        let who = desk.who;
        self.tally.number(Operation::Append, number);
        let records = desk.log.first().copied().unwrap_or(0);
        self.tell(|| Scene::Logged {
            desk: who,
            kind,
            body: body.to_vec(),
            cut: cut.filter(|_| number == 26),
            number: scenes::number(number),
            records,
        });
        let (made, log) = (&mut self.tally.made, &self.desks[at].log);
        checked(made, &before, (kind, body, stores), number, log)?;
        self.tally.fault_if(number == 24, Fault::FullLog);
        if number == 26 {
            self.cut_append(at, body.len() as u64, stores)?;
        }
        Ok(number == 0)
    }

    /// The power was cut after so many stores of an append.
    fn cut_append(&mut self, at: usize, body: u64, stores: u64) -> Checked {
        self.tally.fault(match stores {
            0 => Fault::CutBefore,
            stores if stores < body => Fault::CutInBody,
            stores if stores < body + 11 => Fault::CutInLine,
            _ => Fault::CutBeforeCount,
        });
        self.desks[at].cut = true;
        self.crash(at)
    }

    /// A desk that came back reads its log: what is due is to be recovered.
    pub(super) fn read_log(&mut self, at: usize) -> Checked {
        let log = &self.desks[at].log;
        let number = self.library.check_log(log);
        self.tally.number(Operation::LogCheck, number);
        let read = read(log);
        let good = if read.is_some() { 0 } else { 23 };
        self.tally.made.same(Check::LogGood, number, good)?;
        self.desks[at].due = read.map(|read| due(&read.records)).unwrap_or_default();
        Ok(())
    }

    /// A desk that came back reads its log, and now and then recovers at once,
    /// whether something is due or not.
    pub(super) fn after_start(&mut self, at: usize) -> Checked {
        if self.shape.transacting {
            return Ok(());
        }
        self.read_log(at)?;
        match self.one_in(3) {
            true => self.recover(at),
            false => Ok(()),
        }
    }

    /// A desk goes on with its log: it logs what is synced, writes out or
    /// recovers what is due, and else works on a transaction.
    pub(super) fn log_work(&mut self, at: usize, card: usize) -> Checked {
        if self.shape.transacting {
            return self.tend(at);
        }
        if let Some((card, transaction)) = self.desks[at].written.first().copied() {
            return self.synced(at, card, transaction);
        }
        match self.desks[at].due.first().cloned() {
            None => self.transact(at, card),
            Some(_) if self.one_in(3) => self.transact(at, card),
            Some(_) if self.one_in(2) => self.recover(at),
            Some(update) => self.write_out(at, &update),
        }
    }

    /// A step of a transaction: begin, updates, commit; now and then a record
    /// that may not stand there, or a transaction that is given up.
    fn transact(&mut self, at: usize, card: usize) -> Checked {
        let next = self.desks[at].transaction + 1;
        if self.one_in(60) {
            let open = self.desks[at].open;
            let (kind, number) = if open.is_none() {
                (COMMIT, next)
            } else {
                (BEGIN, 0)
            };
            return self.append(at, kind, &number.to_le_bytes()).map(|_| ());
        }
        let open = self.desks[at].open;
        match open {
            None => self.begin(at),
            Some(_) if self.one_in(20) => {
                self.tally.fault(Fault::Abandoned);
                self.begin(at)
            }
            Some(updates) if updates == 0 || updates < 4 && self.one_in(2) => {
                self.update(at, card, updates)
            }
            Some(_) => self.commit(at),
        }
    }

    fn begin(&mut self, at: usize) -> Checked {
        let next = self.desks[at].transaction + 1;
        if self.append(at, BEGIN, &next.to_le_bytes())? {
            let desk = &mut self.desks[at];
            (desk.transaction, desk.open) = (next, Some(0));
            return Ok(());
        }
        self.renew(at);
        Ok(())
    }

    fn update(&mut self, at: usize, card: usize, updates: usize) -> Checked {
        let card = if self.one_in(30) {
            self.shape.cards
        } else {
            card
        };
        let side = self.random.pick(&[1u8, 1, 2]);
        let mut body = (card as u16).to_le_bytes().to_vec();
        body.push(side);
        body.extend(self.some_text());
        if self.append(at, UPDATE, &body)? {
            self.desks[at].open = Some(updates + 1);
            return Ok(());
        }
        self.renew(at);
        Ok(())
    }

    fn commit(&mut self, at: usize) -> Checked {
        let number = self.desks[at].transaction;
        if !self.append(at, COMMIT, &number.to_le_bytes())? {
            self.renew(at);
            return Ok(());
        }
        self.desks[at].open = None;
        self.read_log(at)
    }

    fn synced(&mut self, at: usize, card: u16, transaction: u32) -> Checked {
        let mut body = card.to_le_bytes().to_vec();
        body.extend(transaction.to_le_bytes());
        let stands = self.append(at, SYNCED, &body)?;
        if self.desks[at].is_up() {
            self.desks[at].written.remove(0);
        }
        if !stands {
            self.renew(at);
            return Ok(());
        }
        self.read_log(at)
    }

    /// A log that is full is begun again once nothing in it is due; what is
    /// open in it is given up.
    fn renew(&mut self, at: usize) {
        let desk = &mut self.desks[at];
        if !desk.is_up() || !desk.due.is_empty() {
            return;
        }
        desk.log.fill(0);
        (desk.open, desk.transaction) = (None, 0);
        let who = desk.who;
        self.tell(|| Scene::Said(format!("desk {who} begins a new log")));
    }

    /// A desk writes out the first update that is due, by a command.
    fn write_out(&mut self, at: usize, update: &Update) -> Checked {
        let card = usize::from(update.card);
        if card >= self.shape.cards {
            return self.recover(at);
        }
        if self.waits(at, card) {
            return self.ask(at, card);
        }
        let pair = match self.desks[at].at[card].open[1] {
            Some(pair) => pair,
            None => match self.propose(at, card, 2)? {
                Some(pair) => pair,
                None => return Ok(()),
            },
        };
        self.command_under(at, card, (2, pair, pair), Some(update))
    }

    /// The store accepted a write of a line of the log.
    pub(super) fn wrote(&mut self, at: usize, line: Option<u64>) {
        let desk = &mut self.desks[at];
        let Some(line) = line.filter(|line| desk.due.first().is_some_and(|due| due.line == *line))
        else {
            return;
        };
        let Update {
            card, transaction, ..
        } = desk.due.remove(0);
        let more = |due: &Update| due.card == card && due.transaction <= transaction;
        if line > 0 && !desk.due.iter().any(more) {
            desk.written.push((card, transaction));
        }
    }

    /// New exclusive pairs for the cards of which something is due; now and
    /// then there are none.
    fn pairs(&mut self, at: usize) -> Checked<[Vec<u64>; 2]> {
        let cards = self.shape.cards + 1;
        let mut pairs = [vec![0; cards], vec![0; cards]];
        if self.one_in(40) {
            return Ok(pairs);
        }
        let due = self.desks[at].due.iter().map(|due| usize::from(due.card));
        let due: BTreeSet<usize> = due.collect();
        for card in due {
            if let Some(Pair { s, x }) = self.propose(at, card, 2)? {
                (pairs[0][card], pairs[1][card]) = (s, x);
            }
        }
        Ok(pairs)
    }

    /// A desk recovers; the power may be cut after any of recovery's writes.
    fn recover(&mut self, at: usize) -> Checked {
        self.tally.step(Step::Recover);
        let pairs = self.pairs(at)?;
        if self.one_in(6) {
            return self.cut_recovery(at, &pairs);
        }
        let (number, line) = self.recover_whole(at, &pairs)?;
        match number {
            0 => self.recovered(at, &pairs),
            _ => self.recovery_refused(at, number, line),
        }
    }

    /// The library's recovery, checked.
    pub(super) fn recover_whole(&mut self, at: usize, pairs: &[Vec<u64>; 2]) -> Checked<(u8, u64)> {
        let [s, x] = pairs;
        let log = &self.desks[at].log;
        let before = self.scenes.is_some().then(|| self.image.clone());
        let answer = self.library.recover(log, &mut self.image, s, x);
        self.tally.number(Operation::Recover, answer.0);
        if let Some((scenes, before)) = self.scenes.as_mut().zip(before) {
            let (who, images) = (self.desks[at].who, [&before[..], &self.image]);
            scenes.push(scenes::recovered(who, pairs, answer, images));
        }
        let recovery = Recovery {
            log,
            pairs: (s, x),
            answer,
            image: &self.image,
        };
        recovery::checked(&mut self.tally.made, &mut self.store, recovery)?;
        Ok(answer)
    }

    /// A recovery ended well: once in a while it is run again, which must leave
    /// the same texts; then its cards are to be logged as synced.
    fn recovered(&mut self, at: usize, pairs: &[Vec<u64>; 2]) -> Checked {
        let after_cut = std::mem::take(&mut self.desks[at].cut);
        self.tally.fault_if(after_cut, Fault::RecoveredAfterCut);
        if self.one_in(4) {
            let texts = |town: &Self| -> Vec<_> {
                town.store
                    .cards
                    .iter()
                    .map(|card| card.texts.clone())
                    .collect()
            };
            let before = texts(self);
            let (number, _) = self.recover_whole(at, pairs)?;
            if number == 0 {
                let same = texts(self) == before;
                let made = &mut self.tally.made;
                made.hold(Check::Twice, same, || "the texts differ".into())?;
            }
        }
        let desk = &mut self.desks[at];
        for Update {
            card, transaction, ..
        } in std::mem::take(&mut desk.due)
        {
            desk.written.retain(|(other, _)| *other != card);
            desk.written.push((card, transaction));
        }
        Ok(())
    }

    /// The guard refused a write of recovery: a stale pair is learnt better; an
    /// update that can never be written is given up.
    fn recovery_refused(&mut self, at: usize, number: u8, line: u64) -> Checked {
        self.tally.fault(Fault::RecoveryRefused);
        self.tally.fault_if(number == 7, Fault::Worn);
        let due = self.desks[at].due.iter();
        let refused = due.clone().find(|due| due.line == line).cloned();
        let Some(Update {
            card, transaction, ..
        }) = refused
        else {
            return Ok(());
        };
        let desk = &mut self.desks[at];
        match number {
            1 | 2 | 5 | 7 => desk.written.push((card, transaction)),
            9 => {
                self.tally.fault(Fault::OldImage);
                self.looks_at_version(at);
            }
            17 => return self.crash(at),
            _ => self.catch_up(at, card.into())?,
        }
        Ok(())
    }

    /// A desk verifies a card, whatever the guard says to it, and learns the
    /// pair of the reply.
    pub(super) fn catch_up(&mut self, at: usize, card: usize) -> Checked {
        let Some(pair) = self.propose(at, card, 1)? else {
            return Ok(());
        };
        let fields = CommandFields {
            act: 5,
            mode: 1,
            card: card as u16,
            pair,
            ..CommandFields::default()
        };
        let answer = self.judge(&fields.to_bytes(), 0)?;
        self.learn(at, card, Pair::new(answer.fields[0], answer.fields[1]))
    }

    /// The power is cut inside a recovery: the first of its writes are sent, as
    /// rule 11.17 has them, and the desk goes down.
    pub(super) fn cut_recovery(&mut self, at: usize, [s, x]: &[Vec<u64>; 2]) -> Checked {
        let due = self.desks[at].due.clone();
        let first = self.random.index(due.len() + 1);
        for update in &due[..first] {
            let card = usize::from(update.card);
            let of = |list: &[u64]| list.get(card).copied().unwrap_or(0);
            let command = self.store.write_of(update, Pair::new(of(s), of(x)));
            if self.judge(&command, 0)?.number != 0 {
                break;
            }
        }
        self.tally.fault(Fault::CutRecovery);
        self.desks[at].cut = true;
        self.crash(at)
    }
}
