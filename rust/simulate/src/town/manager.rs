//! The lock managers: a queue for each card and manager, leases, and queues that are lost.

use lupaniele::DeskId;
use second::Pair;
use story::Scene;

use super::post::Body;
use super::{empty_queue, Town};
use crate::checks::formed::{desk_of, own};
use crate::checks::queue::{place, turned, Listed, Turn};
use crate::checks::{Check, Checked};
use crate::library::{Lease, Library, Queue, QueueAnswer};
use crate::scenes;
use crate::tally::{Fault, Operation, Step};

/// The queue of one card at one manager.
#[derive(Clone, Debug)]
pub struct Keeper {
    /// The queue.
    pub queue: Queue,
    /// What its own accepted requests leave.
    pub listed: Listed,
    /// How many asks it accepted.
    pub accepted: u64,
    /// The desk and start that it holds failed, and since when.
    pub failed: Option<(u32, f64)>,
    /// The last desks that it took out by lease.
    pub lapsed: Vec<u32>,
}

impl Keeper {
    pub(super) fn new(places: u64) -> Keeper {
        Keeper {
            queue: empty_queue(places),
            listed: Listed::default(),
            accepted: 0,
            failed: None,
            lapsed: Vec::new(),
        }
    }
}

impl<L: Library> Town<'_, L> {
    /// A request reaches a queue.
    pub(super) fn turn(&mut self, at: usize, turn: Turn) -> Checked<QueueAnswer> {
        let card = self.card_of(at);
        self.in_its_mode_asked(card, turn)?;
        let before = self.keepers[at].queue;
        let against = self.against(card);
        let queue = &mut self.keepers[at].queue;
        let (operation, answer) = match turn {
            Turn::Ask(mode, pair) => (Operation::Ask, self.library.ask(queue, mode, pair)),
            Turn::Leave(desk) => (Operation::Leave, self.library.leave(queue, desk)),
            Turn::Lapse(desk, lease) => (Operation::Lapse, self.library.lapse(queue, desk, lease)),
        };
        self.tally.number(operation, answer.number);
        let queue = self.keepers[at].queue;
        self.tell_manager(at);
        self.tell(|| scenes::turned(card as u16, turn, &answer, &queue));
        let made = &mut self.tally.made;
        turned(made, &before, turn, &answer, &queue)?;
        let listed = &mut self.keepers[at].listed;
        listed.turned(made, turn, answer.number, &queue)?;
        let begins = against.is_empty() && !self.against(card).is_empty();
        self.tally.fault_if(begins, Fault::TwoHold);
        Ok(answer)
    }

    /// A desk asks, or upgrades.
    pub(super) fn asks(
        &mut self,
        desk: usize,
        who: DeskId,
        (card, manager): (usize, usize),
        (mode, pair): (u8, Pair),
        denied: Option<u64>,
    ) -> Checked {
        let at = self.queue_of(card, manager);
        let stood = place(&self.keepers[at].queue, who.number());
        let answer = self.turn(at, Turn::Ask(mode, pair))?;
        let (number, [holds, s, x, _]) = (answer.number, answer.fields);
        let keeper = &mut self.keepers[at];
        if denied == Some(keeper.accepted) && self.rule.is_none() {
            let made = &mut self.tally.made;
            made.hold(Check::NotDenied, number != 11, || "denied again".into())?;
        }
        keeper.accepted += u64::from(number == 0);
        let accepted = keeper.accepted;
        self.tally.fault_if(number == 11, Fault::Denied);
        if stood.is_some() && mode == 2 {
            self.tally.fault_if(number == 0, Fault::Upgrade);
            self.tally.fault_if(number == 11, Fault::UpgradeDenied);
        }
        let pair = Pair::new(s, x);
        let told = Body::Stands(manager, mode, number, holds == 1, pair, accepted);
        self.answer_to(desk, who, card, told);
        Ok(())
    }

    /// A desk leaves.
    pub(super) fn leaves(
        &mut self,
        desk: usize,
        who: DeskId,
        (card, manager): (usize, usize),
    ) -> Checked {
        let at = self.queue_of(card, manager);
        let answer = self.turn(at, Turn::Leave(who.number()))?;
        let (number, [_, s, x, _]) = (answer.number, answer.fields);
        let accepted = self.keepers[at].accepted;
        let told = Body::Stands(manager, 0, number, false, Pair::new(s, x), accepted);
        self.answer_to(desk, who, card, told);
        Ok(())
    }

    /// A manager looks after its queue: it may lose it, hold a desk failed, or
    /// take out a desk whose lease is over.
    pub(super) fn manage(&mut self) -> Checked {
        self.tally.step(Step::Manage);
        let at = self.random.index(self.keepers.len());
        if self.shape.managers > 1 && self.one_in(12) {
            self.cut_begins();
            return Ok(());
        }
        if self.one_in(60) {
            return self.lose_queue(at);
        }
        match self.keepers[at].failed {
            None => {
                self.suspect(at);
                Ok(())
            }
            Some((desk, begin)) => self.lapse(at, desk, begin),
        }
    }

    /// The queue is lost, and begins again empty over what its places hold.
    fn lose_queue(&mut self, at: usize) -> Checked {
        let keeper = &mut self.keepers[at];
        keeper.queue.kept = [0; 3];
        keeper.listed = Listed::default();
        keeper.failed = None;
        let places = keeper.queue.places;
        let card = self.card_of(at);
        self.tally.fault(Fault::QueueLost);
        self.tell_manager(at);
        self.tell(|| Scene::QueueBegan {
            card: card as u16,
            places,
        });
        Ok(())
    }

    /// A manager holds a desk failed that stands: mostly one that is silent or
    /// gone, now and then any.
    fn suspect(&mut self, at: usize) {
        let queue = &self.keepers[at].queue;
        let count = queue.kept[0] as usize;
        if count == 0 {
            return;
        }
        let place = self.random.index(count);
        let pair = Pair::new(queue.s[place], queue.x[place]);
        let desk = desk_of(own(queue.modes[place], pair));
        let there = |other: &super::Desk| other.who.number() == desk && other.is_up();
        let well = self.desks.iter().any(there);
        if !well || self.one_in(40) {
            self.keepers[at].failed = Some((desk, self.clock));
        }
    }

    /// A desk that is held failed is taken out, once its lease is over.
    fn lapse(&mut self, at: usize, desk: u32, begin: f64) -> Checked {
        let odd = [f64::NAN, -1.0, f64::INFINITY, 86_401.0];
        let period = if self.one_in(12) {
            self.random.pick(&odd)
        } else {
            30.0
        };
        let drift = self.random.pick(&[0.0, 0.1, 0.5]);
        let back = if self.one_in(12) { 40.0 } else { 0.0 };
        let now = (self.clock - back).max(0.0);
        let lease = Lease {
            period,
            drift,
            begin,
            now,
        };
        let answer = self.turn(at, Turn::Lapse(desk, lease))?;
        let number = answer.number;
        let keeper = &mut self.keepers[at];
        if number == 0 {
            keeper.lapsed.push(desk);
            let extra = keeper.lapsed.len().saturating_sub(8);
            keeper.lapsed.drain(..extra);
            self.tally.fault(Fault::Lapsed);
        }
        if number == 0 || number == 15 {
            self.keepers[at].failed = None;
        }
        Ok(())
    }
}
