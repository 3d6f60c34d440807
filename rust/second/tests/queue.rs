//! The lock queue: every number with its neighbours, the order, who holds the
//! lock, and the entries looked at (rules 7.1 to 7.14).

mod common;

use common::check::turn;
use common::*;
use second::stamp::stamp;
use second::{Pair, Place, QueueAnswer, Turn};

/// Turns whose answer and queue are checked.
trait Checked {
    fn turn(&mut self, taken: Turn) -> QueueAnswer;

    fn ask(&mut self, asked: Place) -> QueueAnswer {
        self.turn(Turn::Ask(asked))
    }

    fn leave(&mut self, desk: u16) -> QueueAnswer {
        self.turn(Turn::Leave(u32::from(desk) << 16))
    }
}

impl Checked for Kept {
    fn turn(&mut self, taken: Turn) -> QueueAnswer {
        self.lend(|queue| turn(queue, taken))
    }
}

/// Shared by a desk at time 1, with no exclusive stamp.
fn shared(desk: u16) -> Place {
    Place::new(SHARED, at(1, desk), 0)
}

/// Exclusive by a desk at time 1, with the largest shared stamp of time 1.
fn exclusive(desk: u16) -> Place {
    Place::new(EXCLUSIVE, at(1, u16::MAX), at(1, desk))
}

/// Number, holding, looked at.
fn short(answer: QueueAnswer) -> (u8, bool, usize) {
    (answer.number, answer.holds, answer.looked_at)
}

/// Asking and leaving both get 10.
fn assert_bad(mut kept: Kept) {
    let bad = QueueAnswer {
        number: 10,
        ..QueueAnswer::default()
    };
    assert_eq!(kept.ask(shared(9)), bad);
    assert_eq!(kept.ask(Place::default()), bad);
    assert_eq!(kept.leave(1), bad);
    assert_eq!(kept.leave(0), bad);
}

/// Neither asking nor leaving gets 10.
fn assert_good(mut kept: Kept) {
    assert_ne!(kept.leave(9).number, 10);
    assert_ne!(kept.ask(shared(9)).number, 10);
}

#[test]
fn number_10_length() {
    for length in [1, 2, 31, 32] {
        assert_good(Kept::new(length, &[]));
        assert_good(Kept::new(length, &[shared(1)]));
    }
    for length in [0, 33, 34, 1_000] {
        assert_bad(Kept::new(length, &[]));
    }
    assert_bad(Kept::new(33, &[shared(1)]));
}

#[test]
fn number_10_count_above_length() {
    let standing: Vec<Place> = (1..=4).map(shared).collect();
    for (count, good) in [
        (0, true),
        (3, true),
        (4, true),
        (5, false),
        (usize::MAX, false),
    ] {
        let mut kept = Kept::new(4, &standing);
        kept.count = count;
        match good {
            true => assert_good(kept),
            false => assert_bad(kept),
        }
    }
}

#[test]
fn number_10_largest_pair() {
    for bad in [1, 1 << 32, 1 << 63, 0xffff_ffff_0000_ffff] {
        let mut kept = Kept::new(4, &[]);
        kept.largest.s = bad;
        assert_bad(kept);
        let mut kept = Kept::new(4, &[]);
        kept.largest.x = bad;
        assert_bad(kept);
    }
    for good in [0, 1 << 16, u64::MAX] {
        let mut kept = Kept::new(4, &[]);
        kept.largest = Pair::new(good, good);
        assert_good(kept);
    }
}

/// A queue of three with this entry in the middle, all below the largest.
fn with_entry(entry: Place) -> Kept {
    let mut kept = Kept::new(5, &[shared(1), entry, shared(3)]);
    kept.largest = Pair::new(u64::MAX, u64::MAX);
    kept
}

#[test]
fn number_10_malformed_entry() {
    assert_good(with_entry(Place::new(SHARED, at(1, 2), 0)));
    assert_good(with_entry(Place::new(SHARED, at(1, 2), at(7, 7))));
    assert_good(with_entry(Place::new(EXCLUSIVE, 0, at(1, 2))));
    for mode in [0, 3, 4, 255] {
        assert_bad(with_entry(Place::new(mode, at(1, 2), at(1, 2))));
    }
    assert_bad(with_entry(Place::new(SHARED, 0, at(1, 2))));
    assert_bad(with_entry(Place::new(EXCLUSIVE, at(1, 2), 0)));
    assert_bad(with_entry(Place::new(SHARED, at(1, 2), 1)));
    assert_bad(with_entry(Place::new(EXCLUSIVE, 1 << 32, at(1, 2))));
    assert_bad(with_entry(Place::new(SHARED, at(1, 0), 0)));
    assert_bad(with_entry(Place::default()));
}

#[test]
fn number_10_same_desk_and_start_twice() {
    // Desk 1 stands first and desk 3 last.
    for time in [0, 1, 2] {
        assert_bad(with_entry(Place::new(SHARED, at(time, 1), 0)));
        assert_bad(with_entry(Place::new(SHARED, at(time, 3), 0)));
        assert_bad(with_entry(Place::new(EXCLUSIVE, 0, at(time, 3))));
    }
    // Another start is another desk's, and the other stamp names no desk.
    assert_good(with_entry(Place::new(SHARED, stamp(1, 1, 1), 0)));
    assert_good(with_entry(Place::new(SHARED, at(1, 2), at(1, 1))));
    assert_good(with_entry(Place::new(EXCLUSIVE, at(1, 1), at(1, 2))));
}

#[test]
fn number_10_a_stamp_above_the_largest() {
    let entry = Place::new(EXCLUSIVE, at(4, 4), at(5, 5));
    for (s, x, good) in [
        (at(4, 4), at(5, 5), true),
        (at(4, 4) + 1, at(5, 5) + 1, true),
        (at(4, 4) - 1, at(5, 5), false),
        (at(4, 4), at(5, 5) - 1, false),
        (at(4, 4), 0, false),
        (0, at(5, 5), false),
        (at(5, 5), at(4, 4), false),
    ] {
        let mut kept = Kept::new(5, &[entry]);
        kept.largest = Pair::new(s, x);
        match good {
            true => assert_good(kept),
            false => assert_bad(kept),
        }
    }
}

#[test]
fn places_past_the_count_are_not_looked_at() {
    let past = [
        Place::new(255, u64::MAX, 1),
        Place::new(SHARED, at(1, 1), 0),
        Place::new(EXCLUSIVE, 0, u64::MAX),
    ];
    let mut kept = Kept::new(8, &[shared(1), shared(2)]);
    kept.places[3..6].copy_from_slice(&past);
    kept.places[2] = past[0];
    assert_eq!(short(kept.ask(shared(3))), (0, true, 2));
    assert_eq!(kept.places[2], shared(3));
    assert_eq!(short(kept.leave(1)), (0, false, 1));
    assert_eq!(kept.places[..3], [shared(2), shared(3), Place::default()]);
    assert_eq!(kept.places[3..6], past);
}

#[test]
fn number_1_by_a_commands_rules() {
    let malformed = QueueAnswer {
        number: 1,
        ..QueueAnswer::default()
    };
    for (mode, s, x) in [
        (0, at(2, 2), at(2, 2)),
        (3, at(2, 2), at(2, 2)),
        (255, at(2, 2), at(2, 2)),
        (SHARED, 0, at(2, 2)),
        (EXCLUSIVE, at(2, 2), 0),
        (SHARED, at(2, 2), 1),
        (EXCLUSIVE, 1 << 32, at(2, 2)),
        (SHARED, at(2, 0), 0),
        (EXCLUSIVE, 0, at(2, 0)),
        (SHARED, 0, 0),
    ] {
        let mut kept = Kept::new(4, &[shared(1)]);
        assert_eq!(kept.ask(Place::new(mode, s, x)), malformed);
    }
    let mut kept = Kept::new(4, &[shared(1)]);
    assert_eq!(kept.ask(Place::new(SHARED, at(2, 2), 0)).number, 0);
    assert_eq!(
        kept.ask(Place::new(EXCLUSIVE, at(2, 2), at(3, 3))).number,
        0
    );
}

#[test]
fn number_12_this_desk_and_start_already_stands() {
    let standing = [shared(1), shared(2), exclusive(3), shared(4)];
    for (asked, expected) in [
        (shared(1), (12, true, 1)),
        (shared(2), (12, true, 2)),
        (exclusive(3), (12, false, 3)),
        (shared(4), (12, false, 4)),
        (Place::new(SHARED, at(7, 3), at(7, 9)), (12, false, 3)),
    ] {
        let mut kept = Kept::new(8, &standing);
        let answer = kept.ask(asked);
        assert_eq!(short(answer), expected);
        assert_eq!(answer.largest, Pair::new(at(1, u16::MAX), at(1, 3)));
    }
    let mut kept = Kept::new(8, &standing);
    let other_start = Place::new(SHARED, stamp(1, 1, 1), at(1, 3));
    assert_eq!(short(kept.ask(other_start)), (0, false, 4));
}

/// The answer to asking when the largest pair is (5.5.0, 7.7.0).
fn asked_after(mode: u8, s: u64, x: u64) -> u8 {
    let mut kept = Kept::new(4, &[]);
    kept.largest = Pair::new(at(5, 5), at(7, 7));
    let answer = kept.ask(Place::new(mode, s, x));
    let largest = match answer.number {
        0 => Pair::new(s.max(at(5, 5)), x.max(at(7, 7))),
        _ => Pair::new(at(5, 5), at(7, 7)),
    };
    assert_eq!((answer.largest, answer.looked_at), (largest, 0));
    assert_eq!(answer.holds, answer.number == 0);
    answer.number
}

#[test]
fn number_11_denied() {
    let (s, x) = (at(5, 5), at(7, 7));
    for own in [s - 1, s, s + 1, at(1, 1), at(9, 9)] {
        assert_eq!(asked_after(SHARED, own, x), 0);
        assert_eq!(asked_after(SHARED, own, x + 1), 0);
        assert_eq!(asked_after(SHARED, own, x - 1), 11);
        assert_eq!(asked_after(SHARED, own, 0), 11);
    }
    for (s, x, expected) in [
        (s, x, 0),
        (s + 1, x, 0),
        (s, x + 1, 0),
        (s - 1, x, 11),
        (s, x - 1, 11),
        (s - 1, x + 1, 11),
        (s + 1, x - 1, 11),
        (0, x, 11),
        (at(9, 9), at(9, 9), 0),
    ] {
        assert_eq!(asked_after(EXCLUSIVE, s, x), expected);
    }
}

#[test]
fn number_11_goes_by_what_was_ever_accepted() {
    let mut kept = Kept::new(4, &[]);
    assert_eq!(
        kept.ask(Place::new(EXCLUSIVE, at(2, 2), at(2, 2))).number,
        0
    );
    assert_eq!(kept.leave(2).number, 0);
    assert_eq!(kept.count, 0);
    assert_eq!(kept.ask(Place::new(SHARED, at(1, 1), at(1, 1))).number, 11);
    assert_eq!(kept.ask(Place::new(SHARED, at(1, 1), at(2, 2))).number, 0);
    assert_eq!(kept.largest, Pair::new(at(2, 2), at(2, 2)));
}

#[test]
fn number_13_exactly_when_count_equals_length() {
    for length in [1, 2, 3, 32] {
        let standing: Vec<Place> = (1..=length).map(shared).collect();
        let mut full = Kept::new(length.into(), &standing);
        assert_eq!(short(full.ask(shared(100))), (13, false, length.into()));
        let mut one_free = Kept::new(length.into(), &standing[1..]);
        assert_eq!(
            short(one_free.ask(shared(100))),
            (0, true, usize::from(length) - 1)
        );
    }
}

#[test]
fn the_order_for_asking() {
    let full = || Kept::new(2, &[shared(1), exclusive(2)]);
    let standing = Place::new(SHARED, at(0, 1), 0);
    assert_eq!(full().ask(standing).number, 12, "12 before 11 and 13");
    assert_eq!(full().ask(shared(3)).number, 11, "11 before 13");
    assert_eq!(
        full().ask(Place::new(SHARED, at(0, 3), at(1, 2))).number,
        13
    );
    assert_eq!(
        full().ask(Place::new(3, at(0, 1), 0)).number,
        1,
        "1 before 12"
    );
    let mut bad = full();
    bad.largest.x = 0;
    assert_eq!(
        bad.ask(Place::new(3, at(0, 1), 0)).number,
        10,
        "10 before 1"
    );
    assert_eq!(bad.ask(standing).number, 10, "10 before 12");
    assert_eq!(bad.leave(77).number, 10, "10 before 15");
}

#[test]
fn number_15_not_standing() {
    let mut kept = Kept::new(4, &[shared(1), shared(2)]);
    let largest = kept.largest;
    for desk in [0, 3, 7, u16::MAX] {
        let answer = kept.leave(desk);
        assert_eq!(short(answer), (15, false, 2));
        assert_eq!(answer.largest, largest);
    }
    assert_eq!(kept.turn(Turn::Leave(1)).number, 15);
    assert_eq!(kept.turn(Turn::Leave(1 << 16 | 1)).number, 15);
    assert_eq!(kept.turn(Turn::Leave(1 << 16)).number, 0);
    assert_eq!(kept.turn(Turn::Leave(1 << 16)).number, 15);
    assert_eq!(short(Kept::new(1, &[]).leave(1)), (15, false, 0));
}

#[test]
fn leaving_closes_the_gap_and_zeroes_the_freed_last_place() {
    let standing = [shared(1), exclusive(2), exclusive(3), exclusive(4)];
    for (desk, rest) in [
        (1, [standing[1], standing[2], standing[3]]),
        (2, [standing[0], standing[2], standing[3]]),
        (3, [standing[0], standing[1], standing[3]]),
        (4, [standing[0], standing[1], standing[2]]),
    ] {
        let mut kept = Kept::new(6, &standing);
        kept.places[4] = Place::new(9, 9, 9);
        assert_eq!(short(kept.leave(desk)), (0, false, desk.into()));
        assert_eq!(kept.count, 3);
        assert_eq!(kept.places[..3], rest);
        assert_eq!(kept.places[3], Place::default());
        assert_eq!(kept.places[4], Place::new(9, 9, 9));
        let newcomer = Place::new(SHARED, at(1, 9), at(1, 4));
        assert_eq!(short(kept.ask(newcomer)), (0, false, 3));
        assert_eq!(kept.places[3], newcomer);
    }
}

/// Who of the desks 1, 2, ... holds the lock, found by asking again.
fn holders(modes: &[u8]) -> Vec<bool> {
    let place = |(&mode, desk): (&u8, u16)| match mode {
        SHARED => shared(desk),
        _ => exclusive(desk),
    };
    let standing: Vec<Place> = modes.iter().zip(1..).map(place).collect();
    let mut kept = Kept::new(8, &standing);
    let again = standing.iter().map(|&place| kept.ask(place).holds);
    again.collect()
}

#[test]
fn who_holds_the_lock() {
    assert_eq!(holders(&[SHARED]), [true]);
    assert_eq!(holders(&[EXCLUSIVE]), [true]);
    assert_eq!(holders(&[SHARED, SHARED, SHARED]), [true, true, true]);
    assert_eq!(holders(&[SHARED, EXCLUSIVE, SHARED]), [true, false, false]);
    assert_eq!(holders(&[EXCLUSIVE, SHARED, SHARED]), [true, false, false]);
    assert_eq!(holders(&[EXCLUSIVE, EXCLUSIVE]), [true, false]);
    assert_eq!(
        holders(&[SHARED, SHARED, EXCLUSIVE, EXCLUSIVE]),
        [true, true, false, false]
    );
}

#[test]
fn a_newcomer_that_holds_the_lock_at_once() {
    let mut kept = Kept::new(4, &[]);
    assert_eq!(short(kept.ask(shared(1))), (0, true, 0));
    assert_eq!(short(kept.ask(shared(2))), (0, true, 1));
    assert_eq!(short(kept.ask(exclusive(3))), (0, false, 2));
    assert_eq!(
        short(kept.ask(Place::new(SHARED, at(1, 4), at(1, 3)))),
        (0, false, 3)
    );
    assert_eq!(short(kept.leave(1)), (0, false, 1));
    assert_eq!(short(kept.leave(2)), (0, false, 1));
    assert_eq!(short(kept.ask(exclusive(3))), (12, true, 1));
    assert_eq!(short(kept.leave(3)), (0, false, 1));
    assert_eq!(short(kept.ask(shared(4))), (12, true, 1));
}
