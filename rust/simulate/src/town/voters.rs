//! Several lock managers for a card, each with a queue of its own and no
//! agreement between them (rule 10.23): whom a desk asks, when it takes the
//! lock for its own, and managers that are cut off from some desks.

use lupaniele::DeskId;
use second::Pair;
use story::Scene;

use super::post::Body;
use super::Town;
use crate::checks::formed::{sendable, EXCLUSIVE};
use crate::checks::queue::{holders, Turn};
use crate::checks::{Check, Checked};
use crate::library::Library;
use crate::rule::Rule;
use crate::tally::Fault;

/// What a desk has at one manager for a card, as far as it knows.
#[derive(Clone, Copy, Debug, Default)]
pub struct Vote {
    /// Whether it asked there.
    pub asked: bool,
    /// Whether it stands in the queue.
    pub stands: bool,
    /// Whether it holds the lock there.
    pub holds: bool,
    /// How many entries the queue had accepted when it was last denied.
    pub denied: Option<u64>,
}

/// For a while desks and managers are on two sides, and no message comes over.
#[derive(Clone, Copy, Debug)]
pub struct Cut {
    until: u64,
    desks: u64,
    managers: u64,
}

impl<L: Library> Town<'_, L> {
    /// The place of a card's queue at a manager.
    pub(super) fn queue_of(&self, card: usize, manager: usize) -> usize {
        card * self.shape.managers + manager
    }

    /// The card of a queue.
    pub(super) fn card_of(&self, queue: usize) -> usize {
        queue / self.shape.managers
    }

    /// The queues of a card.
    fn queues_of(&self, card: usize) -> &[super::Keeper] {
        let first = self.queue_of(card, 0);
        &self.keepers[first..first + self.shape.managers]
    }

    /// Whether some manager took a desk out of this card's queue by lease.
    pub(super) fn lapsed(&self, card: usize, desk: u32) -> bool {
        let mut queues = self.queues_of(card).iter();
        queues.any(|keeper| keeper.lapsed.contains(&desk))
    }

    /// The desks that hold the card at a manager while another desk holds it
    /// at another one, and one of the two exclusively.
    pub(super) fn against(&self, card: usize) -> Vec<u32> {
        if self.shape.managers == 1 {
            return Vec::new();
        }
        let queues = self.queues_of(card).iter();
        let held: Vec<(u8, u32)> = queues.flat_map(|keeper| holders(&keeper.queue)).collect();
        let against = |(mode, desk): &&(u8, u32)| {
            let mut others = held.iter();
            others.any(|(other, by)| by != desk && (*other == EXCLUSIVE || *mode == EXCLUSIVE))
        };
        held.iter().filter(against).map(|(_, desk)| *desk).collect()
    }

    /// Of whom a desk asks the lock: all managers, most of them, one, or none.
    fn voters(&mut self) -> Vec<usize> {
        let managers = self.shape.managers;
        if managers == 1 {
            return vec![0];
        }
        let count = match self.random.below(12) {
            0 => 0,
            1..=4 => managers,
            5..=8 => managers / 2 + 1,
            _ => 1,
        };
        let first = self.random.index(managers);
        (0..count).map(|at| (first + at) % managers).collect()
    }

    /// A desk asks its voters under a pair that it proposed.
    pub(super) fn ask_voters(&mut self, at: usize, card: usize, mode: u8, pair: Pair) {
        let voters = self.voters();
        self.tally.fault_if(voters.is_empty(), Fault::AskedNone);
        let have = &mut self.desks[at].at[card];
        let denied: Vec<Option<u64>> = have.votes.iter().map(|vote| vote.denied).collect();
        have.votes.fill(Vote::default());
        have.holds = voters.is_empty();
        for manager in voters {
            self.desks[at].at[card].votes[manager].asked = true;
            let denied = denied[manager].filter(|_| mode != 3);
            self.send(at, card, Body::Ask(manager, mode, pair, denied));
        }
    }

    /// A desk asks again where it asked, under its pair, to hear how it stands.
    pub(super) fn ask_again(&mut self, at: usize, card: usize, mode: u8, pair: Pair) {
        let votes = self.desks[at].at[card].votes.clone();
        for (manager, vote) in votes.iter().enumerate() {
            if vote.asked {
                self.send(at, card, Body::Ask(manager, mode, pair, None));
            }
        }
    }

    /// A desk leaves where it asked, and now and then where it did not.
    pub(super) fn leave_voters(&mut self, at: usize, card: usize) {
        for manager in 0..self.shape.managers {
            let vote = std::mem::take(&mut self.desks[at].at[card].votes[manager]);
            if vote.asked || self.one_in(2) {
                self.send(at, card, Body::Leave(manager));
            }
        }
    }

    /// A manager's answer: the desk holds the lock where all whom it asked
    /// granted it or, in other towns, most of all managers. Under a pair that was
    /// denied it sends no more.
    pub(super) fn voted(
        &mut self,
        at: usize,
        card: usize,
        (manager, mode): (usize, u8),
        vote: Vote,
    ) {
        let (managers, majority) = (self.shape.managers, self.shape.majority);
        let have = &mut self.desks[at].at[card];
        if let (Some(_), 1 | 2) = (vote.denied, mode) {
            have.open[usize::from(mode) - 1] = None;
        }
        let asked = have.votes[manager].asked;
        have.votes[manager] = Vote { asked, ..vote };
        let count = |test: fn(&Vote) -> bool| have.votes.iter().filter(|vote| test(vote)).count();
        let (asked, granted) = (count(|vote| vote.asked), count(|vote| vote.holds));
        have.stands = count(|vote| vote.stands) > 0;
        have.holds = match majority {
            true => 2 * granted > managers,
            false => granted > 0 && granted >= asked,
        };
    }

    /// Managers and desks fall apart into two sides for a while.
    pub(super) fn cut_begins(&mut self) {
        if self.cut.is_some_and(|cut| self.now < cut.until) {
            return;
        }
        let [desks, managers] = [self.random.number(), self.random.number()];
        let until = self.now + self.random.between(20, 200);
        self.cut = Some(Cut {
            until,
            desks,
            managers,
        });
        self.tally.fault(Fault::CutOff);
        self.tell(|| Scene::Said("lock managers are cut off from some of the desks".into()));
    }

    /// Whether a desk and a manager are on two sides now.
    pub(super) fn apart(&self, desk: u16, manager: usize) -> bool {
        let cut = self.cut.filter(|cut| self.now < cut.until);
        cut.is_some_and(|cut| {
            let side = |sides: u64, at: u64| sides >> (at % 64) & 1;
            side(cut.desks, desk.into()) != side(cut.managers, manager as u64)
        })
    }

    /// Whether a message is lost because its desk and its manager are apart.
    pub(super) fn cut_off(&mut self, who: DeskId, body: &Body) -> bool {
        let manager = match body {
            Body::Ask(manager, ..) | Body::Leave(manager) | Body::Stands(manager, ..) => *manager,
            _ => return false,
        };
        let apart = self.apart(who.desk, manager);
        self.tally.fault_if(apart, Fault::CutMessage);
        apart
    }

    /// Where there are several managers, tells whose queue comes next.
    pub(super) fn tell_manager(&mut self, queue: usize) {
        let managers = self.shape.managers;
        if managers > 1 {
            let (card, manager) = (queue / managers, queue % managers);
            self.tell(|| Scene::Said(format!("at lock manager {manager} of card {card}:")));
        }
    }

    /// An ask under a pair that was proposed in its mode for its card.
    pub(super) fn in_its_mode_asked(&mut self, card: usize, turn: Turn) -> Checked {
        match turn {
            Turn::Ask(mode, pair) => self.in_its_mode(card, mode, pair),
            _ => Ok(()),
        }
    }

    /// What desks by the rules send carries a pair that was proposed for its
    /// card, in the mode in which it was proposed (rule 10.8).
    pub(super) fn in_its_mode(&mut self, card: usize, mode: u8, pair: Pair) -> Checked {
        let by_rules = self.rule.is_none_or(Rule::of_transactions);
        if !by_rules || !sendable(mode, pair) {
            return Ok(());
        }
        let proposed = self.proposed.contains(&(card, mode, pair));
        self.tally.made.hold(Check::InItsMode, proposed, || {
            format!("{pair:x?} was never proposed in mode {mode} for card {card}")
        })
    }
}
