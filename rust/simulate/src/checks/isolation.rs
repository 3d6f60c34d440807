//! The premise and isolation over the list of one card so far (rules 9.5 and
//! 9.6), each command looked at once: what a later one can need is kept.

use std::collections::HashMap;

use second::Pair;

use super::formed::{desk_of, Sent, EXCLUSIVE, SHARED};

/// A session: desk, mode and pair.
type Session = (u32, u8, Pair);

fn session(sent: &Sent) -> Session {
    (sent.desk, sent.mode, sent.update)
}

/// The last place at which some desk was accepted, and the last one of any
/// other desk.
#[derive(Clone, Copy, Debug, Default)]
struct LastOfTwo {
    last: Option<(u64, u32)>,
    other: Option<(u64, u32)>,
}

impl LastOfTwo {
    fn add(&mut self, at: u64, desk: u32) {
        if self.last.is_some_and(|(_, last)| last != desk) {
            self.other = self.last;
        }
        self.last = Some((at, desk));
    }

    /// The last place of a desk that is not this one.
    fn not_of(&self, desk: u32) -> Option<u64> {
        let found = match self.last {
            Some((_, last)) if last == desk => self.other,
            last => last,
        };
        found.map(|(at, _)| at)
    }
}

/// For an exclusive stamp: the largest s of the exclusive commands under it,
/// and the smallest s of the shared commands that carry it for another desk.
#[derive(Clone, Copy, Debug, Default)]
struct Under {
    largest: Option<u64>,
    smallest: Option<u64>,
}

/// The list of one card so far.
#[derive(Clone, Debug, Default)]
pub struct Lists {
    under: HashMap<u64, Under>,
    last: HashMap<Session, u64>,
    any: LastOfTwo,
    exclusive: LastOfTwo,
    broken: bool,
}

impl Lists {
    /// A well-formed command was sent, accepted or not. Whether the premise
    /// still holds, and whether it speaks of this command's stamp at all.
    pub fn sent(&mut self, sent: &Sent) -> (bool, bool) {
        let Pair { s, x } = sent.update;
        let carries = x != 0 && desk_of(x) != desk_of(s);
        if sent.mode == SHARED && !carries {
            return (!self.broken, false);
        }
        let under = self.under.entry(x).or_default();
        match sent.mode {
            SHARED => under.smallest = Some(under.smallest.map_or(s, |least| least.min(s))),
            _ => under.largest = Some(under.largest.map_or(s, |most| most.max(s))),
        }
        let speaks = under.largest.zip(under.smallest);
        self.broken |= speaks.is_some_and(|(largest, smallest)| smallest <= largest);
        (!self.broken, speaks.is_some())
    }

    /// The place of the last accepted command of a command's session.
    pub fn last_of(&self, sent: &Sent) -> Option<u64> {
        self.last.get(&session(sent)).copied()
    }

    /// A command was accepted at a place of the list. If it is not the first
    /// of its session: whether nobody was let in since the one before.
    pub fn accepted(&mut self, at: u64, sent: &Sent) -> Option<bool> {
        let before = self.last.insert(session(sent), at);
        let intruder = match sent.mode {
            EXCLUSIVE => self.any.not_of(sent.desk),
            _ => self.exclusive.not_of(sent.desk),
        };
        self.any.add(at, sent.desk);
        if sent.mode == EXCLUSIVE {
            self.exclusive.add(at, sent.desk);
        }
        before.map(|before| intruder.is_none_or(|intruder| intruder < before))
    }
}
