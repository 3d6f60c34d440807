//! The lock queue of a card (rules 7.1 to 7.14).

use crate::number::{ACCEPTED, ALREADY_STANDING, BAD_QUEUE, DENIED, FULL, MALFORMED, NOT_STANDING};
use crate::stamp::{Mode, Pair};

/// The most places a queue has.
pub const PLACES_LIMIT: usize = 32;

/// One place of the queue, and what a desk asks with; any values at all.
#[derive(Clone, Copy, Debug, Default, PartialEq, Eq, Hash)]
pub struct Place {
    /// 1 shared, 2 exclusive.
    pub mode: u8,
    /// The shared and the exclusive stamp.
    pub pair: Pair,
}

impl Place {
    /// The place of this mode and these stamps.
    pub fn new(mode: u8, s: u64, x: u64) -> Place {
        let pair = Pair::new(s, x);
        Place { mode, pair }
    }

    /// The desk and start of the entry here, or none where nobody can ask with
    /// it (rule 7.6, number 1).
    pub fn desk(self) -> Option<u32> {
        Mode::from_number(self.mode)?.desk(self.pair)
    }

    fn is_exclusive(self) -> bool {
        Mode::from_number(self.mode) == Some(Mode::Exclusive)
    }
}

/// A queue: the lent places, and what is kept beside them (rule 7.1); any
/// values at all.
#[derive(Debug, PartialEq, Eq)]
pub struct Queue<'a> {
    /// The lent places.
    pub places: &'a mut [Place],
    /// How many stand, from the first place on.
    pub count: usize,
    /// The largest s and x.
    pub largest: Pair,
}

/// What a desk does.
#[derive(Clone, Copy, Debug, PartialEq, Eq, Hash)]
pub enum Turn {
    /// Asks with this entry.
    Ask(Place),
    /// Leaves, by desk and start.
    Leave(u32),
}

/// What asking and leaving answer.
#[derive(Clone, Copy, Debug, Default, PartialEq, Eq, Hash)]
pub struct QueueAnswer {
    /// 0, 1 or 10 to 13 for asking; 0, 10 or 15 for leaving; 0, 10, 15, 21 or
    /// 25 for a silent desk.
    pub number: u8,
    /// Whether the desk holds the lock after its turn.
    pub holds: bool,
    /// The largest pair after the turn; with 10 and 1 it has no stamps.
    pub largest: Pair,
    /// Entries looked at, of those that stood before the turn (rule 7.14).
    pub looked_at: usize,
}

impl QueueAnswer {
    fn zeros(number: u8) -> QueueAnswer {
        QueueAnswer {
            number,
            ..QueueAnswer::default()
        }
    }

    /// Holds (1 or 0), the largest s, the largest x, entries looked at.
    pub fn numbers(&self) -> [u64; 4] {
        let looked_at = self.looked_at as u64;
        [self.holds.into(), self.largest.s, self.largest.x, looked_at]
    }
}

impl Queue<'_> {
    /// A desk asks or leaves.
    pub fn turn(&mut self, turn: Turn) -> QueueAnswer {
        match turn {
            Turn::Ask(asked) => self.ask(asked),
            Turn::Leave(desk) => self.leave(desk),
        }
    }

    /// Asks for the lock. Every number but 0 leaves the queue as it was.
    pub fn ask(&mut self, asked: Place) -> QueueAnswer {
        let Some(standing) = self.standing() else {
            return QueueAnswer::zeros(BAD_QUEUE);
        };
        let (Some(mode), Some(desk)) = (Mode::from_number(asked.mode), asked.desk()) else {
            return QueueAnswer::zeros(MALFORMED);
        };
        let found = position(standing, desk);
        let looked_at = looked_at(standing, found);
        let old = upgrade(standing, found, mode);
        let number = if found.is_some() && old.is_none() {
            ALREADY_STANDING
        } else if mode.is_below(asked.pair, self.largest) {
            DENIED
        } else if self.count == self.places.len() && old.is_none() {
            FULL
        } else {
            old.into_iter().for_each(|at| self.close_gap(at));
            self.join(asked);
            ACCEPTED
        };
        self.answer(number, desk, looked_at)
    }

    /// Leaves the queue, by desk and start. Every number but 0 leaves the
    /// queue as it was.
    pub fn leave(&mut self, desk: u32) -> QueueAnswer {
        let Some(standing) = self.standing() else {
            return QueueAnswer::zeros(BAD_QUEUE);
        };
        let found = position(standing, desk);
        let looked_at = looked_at(standing, found);
        let number = match found {
            None => NOT_STANDING,
            Some(at) => {
                self.close_gap(at);
                ACCEPTED
            }
        };
        self.answer(number, desk, looked_at)
    }

    /// Whether a desk and start stands, or none if the queue is bad.
    pub fn stands(&self, desk: u32) -> Option<bool> {
        Some(position(self.standing()?, desk).is_some())
    }

    /// What a refusal answers: the queue as it is, or zeros if it is bad.
    pub(crate) fn told(&self, number: u8, desk: u32) -> QueueAnswer {
        match self.standing() {
            None => QueueAnswer::zeros(number),
            Some(standing) => {
                let looked_at = looked_at(standing, position(standing, desk));
                self.answer(number, desk, looked_at)
            }
        }
    }

    /// The entries that stand, or none if the queue is bad (rule 7.4).
    pub fn standing(&self) -> Option<&[Place]> {
        let length_is_right = (1..=PLACES_LIMIT).contains(&self.places.len());
        let standing = self.places.get(..self.count)?;
        let good = length_is_right
            && self.largest.is_valid()
            && standing.iter().all(|place| self.entry_is_good(*place))
            && desks_differ(standing);
        good.then_some(standing)
    }

    /// Well formed, and neither stamp above the largest.
    fn entry_is_good(&self, place: Place) -> bool {
        place.desk().is_some() && place.pair.s <= self.largest.s && place.pair.x <= self.largest.x
    }

    /// Takes in an accepted entry (rule 7.10).
    fn join(&mut self, asked: Place) {
        if let Some(place) = self.places.get_mut(self.count) {
            *place = asked;
            self.count = self.count.saturating_add(1);
            self.largest = self.largest.larger(asked.pair);
        }
    }

    /// Takes out the entry at a place (rule 7.13).
    fn close_gap(&mut self, at: usize) {
        if let Some(from_gap @ [_, ..]) = self.places.get_mut(at..self.count) {
            from_gap.rotate_left(1);
            if let Some(freed) = from_gap.last_mut() {
                *freed = Place::default();
            }
            self.count = self.count.saturating_sub(1);
        }
    }

    /// The answer for a desk, from the queue after its turn.
    fn answer(&self, number: u8, desk: u32, looked_at: usize) -> QueueAnswer {
        let standing = self.places.get(..self.count).unwrap_or_default();
        QueueAnswer {
            number,
            holds: holds(standing, desk),
            largest: self.largest,
            looked_at,
        }
    }
}

/// Where a desk and start stands.
fn position(standing: &[Place], desk: u32) -> Option<usize> {
    standing.iter().position(|place| place.desk() == Some(desk))
}

/// Where the entry stands that an upgrade takes out (rule 7.8), if this is one.
fn upgrade(standing: &[Place], found: Option<usize>, mode: Mode) -> Option<usize> {
    let shared = |at: &usize| standing.get(*at).is_some_and(|own| !own.is_exclusive());
    found.filter(|at| mode == Mode::Exclusive && shared(at))
}

/// After how many entries a desk is found, or found missing (rule 7.14).
fn looked_at(standing: &[Place], found: Option<usize>) -> usize {
    found.map_or(standing.len(), |at| at.saturating_add(1))
}

/// Whether a desk holds the lock (rule 7.5).
fn holds(standing: &[Place], desk: u32) -> bool {
    match position(standing, desk).and_then(|at| standing.get(..=at)) {
        Some([before @ .., own]) if own.is_exclusive() => before.is_empty(),
        Some([before @ .., _]) => !before.iter().any(|place| place.is_exclusive()),
        _ => false,
    }
}

/// Whether each entry is of another desk.
fn desks_differ(standing: &[Place]) -> bool {
    standing.iter().enumerate().all(|(at, place)| {
        let mut earlier = standing.iter().take(at);
        !earlier.any(|other| other.desk() == place.desk())
    })
}
