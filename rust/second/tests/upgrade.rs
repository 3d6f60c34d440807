//! Upgrading in the queue: a desk that stands shared asks for exclusive.

mod common;

use common::check::turn;
use common::*;
use second::{Pair, Place, QueueAnswer, Turn};

/// Desks 1 to `last` stand, all shared, of which the last has the largest s.
fn guests(places: usize, last: u16) -> Kept {
    let guest = |desk| Place::new(SHARED, at(u32::from(desk), desk), 0);
    let standing: Vec<Place> = (1..=last).map(guest).collect();
    Kept::new(places, &standing)
}

fn ask(kept: &mut Kept, mode: u8, s: u64, x: u64) -> QueueAnswer {
    kept.lend(|queue| turn(queue, Turn::Ask(Place::new(mode, s, x))))
}

/// The desks that stand, from the front.
fn desks(kept: &Kept) -> Vec<u16> {
    let standing = kept.places[..kept.count].iter();
    standing
        .map(|place| (place.desk().expect("good") >> 16) as u16)
        .collect()
}

#[test]
fn the_old_entry_leaves_and_the_new_one_joins_the_end() {
    let mut kept = guests(4, 3);
    let answer = ask(&mut kept, EXCLUSIVE, at(3, 3), at(1, 1));
    assert_eq!(
        (answer.number, answer.holds, answer.looked_at),
        (0, false, 1)
    );
    assert_eq!(answer.largest, Pair::new(at(3, 3), at(1, 1)));
    assert_eq!(desks(&kept), [2, 3, 1]);
    assert_eq!(kept.places[2], Place::new(EXCLUSIVE, at(3, 3), at(1, 1)));
    assert_eq!(kept.places[3], Place::default());
}

#[test]
fn the_last_and_the_middle_one_upgrade_too() {
    let mut kept = guests(4, 3);
    let answer = ask(&mut kept, EXCLUSIVE, at(3, 3), at(1, 2));
    assert_eq!((answer.number, answer.looked_at), (0, 2));
    assert_eq!(desks(&kept), [1, 3, 2]);
    let mut kept = guests(4, 3);
    let answer = ask(&mut kept, EXCLUSIVE, at(3, 3), at(1, 3));
    assert_eq!((answer.number, answer.looked_at), (0, 3));
    assert_eq!(desks(&kept), [1, 2, 3]);
}

#[test]
fn one_that_stands_alone_holds_the_lock_at_once() {
    let mut kept = guests(1, 1);
    let answer = ask(&mut kept, EXCLUSIVE, at(1, 1), at(1, 1));
    assert_eq!(
        (answer.number, answer.holds, answer.looked_at),
        (0, true, 1)
    );
}

#[test]
fn never_13() {
    for places in 1..=32 {
        let mut kept = guests(places.into(), places);
        for desk in 1..=places {
            let number = ask(&mut kept, EXCLUSIVE, at(99, 99), at(99, desk)).number;
            assert_eq!(number, 0, "desk {desk} of {places}");
        }
        let other = ask(&mut kept, SHARED, at(1, 50), at(99, 99));
        assert_eq!(other.number, 13);
    }
}

#[test]
fn the_pair_rule_comes_first() {
    for (s, x, number) in [
        (at(3, 3), at(5, 1), 0),
        (at(3, 3) - 1, at(5, 1), 11),
        (at(3, 3) + 1, at(5, 1), 0),
        (0, at(5, 1), 11),
        (at(3, 3), at(4, 1), 11),
    ] {
        let mut kept = guests(3, 3);
        kept.largest.x = at(5, 1);
        assert_eq!(ask(&mut kept, EXCLUSIVE, s, x).number, number);
        assert_eq!(desks(&kept) == [1, 2, 3], number == 11);
    }
}

#[test]
fn number_12_is_for_everything_else() {
    let mut kept = guests(4, 3);
    assert_eq!(ask(&mut kept, SHARED, at(9, 1), 0).number, 12);
    assert_eq!(ask(&mut kept, EXCLUSIVE, at(9, 9), at(9, 2)).number, 0);
    for (mode, s, x) in [
        (SHARED, at(10, 2), at(9, 2)),
        (EXCLUSIVE, at(9, 9), at(10, 2)),
        // 12 comes before the pair rule.
        (SHARED, at(10, 2), 0),
        (EXCLUSIVE, 0, at(1, 2)),
    ] {
        assert_eq!(ask(&mut kept, mode, s, x).number, 12);
    }
}

#[test]
fn malformed_and_bad_queues_come_before() {
    let mut kept = guests(3, 3);
    assert_eq!(ask(&mut kept, EXCLUSIVE, 1, at(9, 1)).number, 1);
    kept.count = 4;
    assert_eq!(ask(&mut kept, EXCLUSIVE, at(9, 9), at(9, 1)).number, 10);
}

#[test]
fn another_start_is_another_desk() {
    let mut kept = guests(4, 3);
    let answer = ask(&mut kept, EXCLUSIVE, at(3, 3), at(3, 1) + 1);
    assert_eq!((answer.number, answer.looked_at), (0, 3));
    assert_eq!(desks(&kept), [1, 2, 3, 1]);
}
