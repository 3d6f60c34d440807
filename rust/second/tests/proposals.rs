//! What a desk knows and proposes.

mod common;

use common::*;
use second::stamp::stamp;
use second::{Known, Pair};

/// Desk 2 with start 5, which knows this pair.
fn knowing(s: u64, x: u64) -> Known {
    Known {
        pair: Pair::new(s, x),
        ..Known::nothing(2, 5)
    }
}

#[test]
fn the_first_proposals_have_the_smallest_stamp_there_is() {
    let mut known = Known::nothing(2, 5);
    assert_eq!(known.propose(SHARED), Ok(Pair::new(stamp(0, 2, 5), 0)));
    assert_eq!(known, knowing(stamp(0, 2, 5), 0));
    let mut known = Known::nothing(2, 5);
    assert_eq!(known.propose(EXCLUSIVE), Ok(Pair::new(0, stamp(0, 2, 5))));
    assert_eq!(known, knowing(0, stamp(0, 2, 5)));
}

#[test]
fn a_stamp_is_above_what_is_known_and_no_more_than_needed() {
    let next = |known: u64| knowing(known, 0).propose(SHARED).map(|pair| pair.s);
    assert_eq!(next(stamp(7, 2, 4)), Ok(stamp(7, 2, 5)));
    assert_eq!(next(stamp(7, 2, 5)), Ok(stamp(8, 2, 5)));
    assert_eq!(next(stamp(7, 2, 6)), Ok(stamp(8, 2, 5)));
    assert_eq!(next(stamp(7, 1, 65_535)), Ok(stamp(7, 2, 5)));
    assert_eq!(next(stamp(7, 3, 0)), Ok(stamp(8, 2, 5)));
}

#[test]
fn each_mode_keeps_the_other_stamp() {
    let mut known = knowing(stamp(7, 2, 5), stamp(3, 1, 0));
    let shared = Pair::new(stamp(8, 2, 5), stamp(3, 1, 0));
    assert_eq!(known.propose(SHARED), Ok(shared));
    let exclusive = Pair::new(stamp(8, 2, 5), stamp(3, 2, 5));
    assert_eq!(known.propose(EXCLUSIVE), Ok(exclusive));
}

#[test]
fn a_refusal_changes_nothing() {
    for (mut known, mode, number) in [
        (Known::nothing(0, 5), SHARED, 1),
        (Known::nothing(2, 5), 0, 1),
        (Known::nothing(2, 5), 3, 1),
        (knowing(stamp(u32::MAX, 2, 5), 0), SHARED, 16),
        (knowing(0, u64::MAX), EXCLUSIVE, 16),
    ] {
        let before = known;
        assert_eq!(known.propose(mode), Err(number));
        assert_eq!(known, before);
    }
    let mut last = knowing(stamp(u32::MAX, 2, 4), 0);
    assert_eq!(
        last.propose(SHARED),
        Ok(Pair::new(stamp(u32::MAX, 2, 5), 0))
    );
    let mut zero = Known::nothing(0, 5);
    zero.learn(Pair::new(u64::MAX, u64::MAX));
    assert_eq!(zero.propose(SHARED), Err(1));
}

#[test]
fn both_stamps_are_learnt_and_the_larger_of_each_kept() {
    let mut known = knowing(7, 3);
    known.learn(Pair::new(4, 9));
    assert_eq!(known.pair, Pair::new(7, 9));
}

#[test]
fn no_two_exclusive_proposals_carry_one_stamp() {
    let mut known = Known::nothing(2, 5);
    let mut stamps = Vec::new();
    for time in 0..20 {
        known.learn(Pair::new(0, stamp(time * time / 3, 9, 1)));
        stamps.extend(known.propose(EXCLUSIVE).map(|pair| pair.x));
    }
    let mut once = stamps.clone();
    once.dedup();
    assert_eq!((once.len(), stamps.len()), (20, 20));
    assert!(stamps.is_sorted());
}
