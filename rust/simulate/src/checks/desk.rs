//! What a desk knows and proposes (rules 10.1 to 10.7), and what it shows
//! (rules 6.1 to 6.3).

use std::collections::HashSet;

use second::Pair;

use super::formed::{desk_of, EXCLUSIVE, SHARED};
use super::{Check, Checked, Made};
use crate::library::Held;

/// A desk learnt a pair.
pub fn learnt(made: &mut Made, before: [u64; 2], pair: Pair, known: [u64; 2]) -> Checked {
    let larger = [before[0].max(pair.s), before[1].max(pair.x)];
    made.same(Check::Learnt, known, larger)
}

/// The smallest own stamp above a number (rule 10.3); none if there is none.
fn own_above(desk: u32, number: u64) -> Option<u64> {
    let here = number >> 32 << 32 | u64::from(desk);
    match here > number {
        true => Some(here),
        false => here.checked_add(1 << 32),
    }
}

/// What was lent to a proposal, or what it left there.
#[derive(Clone, Copy, Debug, PartialEq, Eq)]
pub struct Proposal {
    /// The number; before the call it is 0.
    pub number: u8,
    /// What the desk knows.
    pub known: [u64; 2],
    /// The pair.
    pub pair: [u64; 2],
}

/// A desk and start proposed in a mode.
pub fn proposed(
    made: &mut Made,
    (desk, start): (u16, u16),
    mode: u8,
    before: Proposal,
    after: Proposal,
) -> Checked {
    let own = u32::from(desk) << 16 | u32::from(start);
    let pair = proposal(own, before.known, mode).map(|pair| [pair.s, pair.x]);
    let expected = match pair {
        _ if desk == 0 || mode != SHARED && mode != EXCLUSIVE => Proposal {
            number: 1,
            ..before
        },
        None => Proposal {
            number: 16,
            ..before
        },
        Some(pair) => Proposal {
            number: 0,
            known: pair,
            pair,
        },
    };
    made.same(Check::Proposed, after, expected)
}

/// The pair that a desk and start proposes in a mode from what it knows (rules
/// 10.4 and 10.5).
pub fn proposal(own: u32, [s, x]: [u64; 2], mode: u8) -> Option<Pair> {
    match mode {
        SHARED => own_above(own, s).map(|s| Pair::new(s, x)),
        EXCLUSIVE => own_above(own, x).map(|x| Pair::new(s, x)),
        _ => None,
    }
}

/// The exclusive stamps that were proposed for a card.
#[derive(Clone, Debug, Default)]
pub struct Stamps(HashSet<u64>);

impl Stamps {
    /// An exclusive proposal has an x of its own (rule 10.13).
    pub fn once(&mut self, made: &mut Made, x: u64) -> Checked {
        let new = self.0.insert(x);
        made.hold(Check::StampsOnce, new, || {
            format!("desk {} proposes x {x:#x} again", desk_of(x) >> 16)
        })
    }
}

/// A desk was asked for a language, and shows so many bytes.
pub fn shown(made: &mut Made, held: &Held, asked: u8, answer: (u8, u64)) -> Checked {
    let beyond = |at: usize| held.lengths[at] > held.buffers[at].len() as u64;
    let behind = held.from == 0 || held.from != held.edition;
    let expected = match asked {
        0 | 1 if beyond(0) || beyond(1) => (8, 0),
        1 if behind => (6, 0),
        0 | 1 => (0, held.lengths[usize::from(asked)]),
        _ => (1, 0),
    };
    made.same(Check::ShownPart, answer, expected)
}
