//! The lock queue of a card (rules 7.1 to 7.16 and section 13).

use second::Pair;

use super::formed::{below, desk_of, own, sendable, EXCLUSIVE, SHARED};
use super::{Check, Checked, Made};
use crate::library::{Lease, Queue, QueueAnswer};

/// A request to the queue.
#[derive(Clone, Copy, Debug, PartialEq)]
pub enum Turn {
    /// A desk asks in a mode under a pair.
    Ask(u8, Pair),
    /// A desk and start leaves.
    Leave(u32),
    /// A desk and start is to be taken out, once its lease is over.
    Lapse(u32, Lease),
}

/// The entry at a place.
fn entry(queue: &Queue, at: usize) -> (u8, Pair) {
    (queue.modes[at], Pair::new(queue.s[at], queue.x[at]))
}

/// How many stand; of a bad queue no more than there are places.
fn count(queue: &Queue) -> usize {
    queue.kept[0].min(32) as usize
}

/// Where a desk stands.
pub fn place(queue: &Queue, desk: u32) -> Option<usize> {
    (0..count(queue)).find(|at| {
        let (mode, pair) = entry(queue, *at);
        desk_of(own(mode, pair)) == desk
    })
}

/// Whether a desk holds the lock (rule 7.5).
fn holds(queue: &Queue, desk: u32) -> bool {
    let Some(at) = place(queue, desk) else {
        return false;
    };
    match queue.modes[at] {
        SHARED => queue.modes[..at].iter().all(|mode| *mode == SHARED),
        _ => at == 0,
    }
}

/// Whether a queue is bad (rule 7.4).
fn bad(queue: &Queue) -> bool {
    let (count, [_, s, x]) = (count(queue), queue.kept);
    if !(1..=32).contains(&queue.places) || queue.kept[0] > queue.places {
        return true;
    }
    let stamp = |stamp: u64| stamp == 0 || desk_of(stamp) >> 16 != 0;
    let entries = (0..count).all(|at| {
        let (mode, pair) = entry(queue, at);
        sendable(mode, pair)
            && pair.s <= s
            && pair.x <= x
            && place(queue, desk_of(own(mode, pair))) == Some(at)
    });
    !(stamp(s) && stamp(x) && entries)
}

/// The desk that a turn is about.
fn desk_of_turn(turn: Turn) -> u32 {
    match turn {
        Turn::Ask(mode, pair) => desk_of(own(mode, pair)),
        Turn::Leave(desk) | Turn::Lapse(desk, _) => desk,
    }
}

/// The number of a turn (rules 7.6, 7.12 and 13.5).
fn number(queue: &Queue, turn: Turn) -> u8 {
    if bad(queue) {
        return 10;
    }
    let stands = place(queue, desk_of_turn(turn));
    match turn {
        Turn::Ask(mode, pair) if !sendable(mode, pair) => 1,
        Turn::Ask(mode, pair) => {
            let upgrade = mode == EXCLUSIVE && stands.is_some_and(|at| queue.modes[at] == SHARED);
            let largest = Pair::new(queue.kept[1], queue.kept[2]);
            match () {
                _ if stands.is_some() && !upgrade => 12,
                _ if below(mode, pair, largest) => 11,
                _ if queue.kept[0] == queue.places && !upgrade => 13,
                _ => 0,
            }
        }
        Turn::Lapse(_, lease) if !in_range(lease) => 21,
        _ if stands.is_none() => 15,
        Turn::Lapse(_, lease) if !over(lease) => 25,
        _ => 0,
    }
}

/// Rule 13.2.
fn in_range(lease: Lease) -> bool {
    let time = |time: f64| (0.0..=1_000_000_000.0).contains(&time);
    lease.period > 0.0
        && lease.period <= 86_400.0
        && (0.0..=0.5).contains(&lease.drift)
        && time(lease.begin)
        && time(lease.now)
}

/// Rules 13.3 and 13.4.
fn over(lease: Lease) -> bool {
    lease.now - lease.begin >= lease.period * (1.0 + lease.drift)
}

/// The queue without the entry at a place (rule 7.13).
fn without(queue: &mut Queue, at: usize) {
    let last = count(queue) - 1;
    queue.modes.copy_within(at + 1..=last, at);
    queue.s.copy_within(at + 1..=last, at);
    queue.x.copy_within(at + 1..=last, at);
    (queue.modes[last], queue.s[last], queue.x[last]) = (0, 0, 0);
    queue.kept[0] -= 1;
}

/// The queue after an accepted turn (rules 7.10 and 7.13).
fn after(queue: &Queue, turn: Turn) -> Queue {
    let mut after = *queue;
    if let Some(at) = place(queue, desk_of_turn(turn)) {
        without(&mut after, at);
    }
    if let Turn::Ask(mode, pair) = turn {
        let at = count(&after);
        (after.modes[at], after.s[at], after.x[at]) = (mode, pair.s, pair.x);
        let [_, s, x] = after.kept;
        after.kept = [at as u64 + 1, s.max(pair.s), x.max(pair.x)];
    }
    after
}

/// The entries that hold the lock: mode and desk (rule 7.5).
pub fn holders(queue: &Queue) -> impl Iterator<Item = (u8, u32)> + '_ {
    let entries = (0..count(queue)).map(|at| entry(queue, at));
    let desks = entries.map(|(mode, pair)| (mode, desk_of(own(mode, pair))));
    desks.filter(|(_, desk)| holds(queue, *desk))
}

/// What the accepted requests of one queue leave, from when it was empty on:
/// the entries that stand, in the order of asking, and the largest pair (rule
/// 7.16). Nothing of any other queue comes into it (rule 10.23).
#[derive(Clone, Debug, Default)]
pub struct Listed {
    stands: Vec<(u8, Pair)>,
    /// The largest s and the largest x of the accepted asks.
    pub largest: Pair,
}

impl Listed {
    /// A request to this queue got a number, and the queue is now so.
    pub fn turned(&mut self, made: &mut Made, turn: Turn, number: u8, queue: &Queue) -> Checked {
        if number == 0 {
            let gone = desk_of_turn(turn);
            self.stands
                .retain(|(mode, pair)| desk_of(own(*mode, *pair)) != gone);
            if let Turn::Ask(mode, pair) = turn {
                self.stands.push((mode, pair));
                let Pair { s, x } = self.largest;
                self.largest = Pair::new(s.max(pair.s), x.max(pair.x));
            }
        }
        let stands = (0..count(queue)).map(|at| entry(queue, at));
        let Pair { s, x } = self.largest;
        let same = stands.eq(self.stands.iter().copied()) && queue.kept[1..] == [s, x];
        made.hold(Check::OwnQueue, same, || {
            format!("the queue: {queue:x?}; its own accepted requests leave {self:x?}")
        })
    }
}

/// One request to a queue was answered: the queue before, the turn, the
/// answer, the queue after.
pub fn turned(
    made: &mut Made,
    before: &Queue,
    turn: Turn,
    answer: &QueueAnswer,
    queue: &Queue,
) -> Checked {
    if answer.number != 0 {
        made.hold(Check::RefusedQueue, before == queue, || {
            format!("number {}, and the queue is changed", answer.number)
        })?;
    }
    let number = number(before, turn);
    made.same(Check::QueueNumber, answer.number, number)?;
    let expected = match number {
        0 => after(before, turn),
        _ => *before,
    };
    made.hold(Check::QueuePlaces, *queue == expected, || {
        format!("the library: {queue:x?}; the rules: {expected:x?}")
    })?;
    let blank = number == 10 || number == 1;
    let desk = desk_of_turn(turn);
    let held = !blank && holds(&expected, desk);
    made.same(Check::QueueHolds, answer.fields[0], held.into())?;
    let looked = place(before, desk).map_or(before.kept[0], |at| at as u64 + 1);
    let fields = match blank {
        true => [0, 0, 0],
        false => [expected.kept[1], expected.kept[2], looked],
    };
    made.same(Check::QueueFields, &answer.fields[1..], &fields[..])
}
