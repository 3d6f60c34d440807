//! Desks that fall silent: every number with its neighbours, the order, and
//! the values of f64 that are no plain number.

mod common;

use common::*;
use second::{Lease, Place, QueueAnswer, Silence};

/// Desks 1 and 2 stand shared.
fn two() -> Kept {
    Kept::new(
        3,
        &[
            Place::new(SHARED, at(1, 1), 0),
            Place::new(SHARED, at(2, 2), 0),
        ],
    )
}

fn lapse(kept: &mut Kept, desk: u16, terms: [f64; 4]) -> QueueAnswer {
    let [period, drift, begin, now] = terms;
    let silence = Silence {
        desk: u32::from(desk) << 16,
        lease: Lease { period, drift },
        begin,
        now,
    };
    kept.lend(|queue| queue.lapse(silence))
}

/// The number for desk 1; a refusal leaves the queue as it was.
fn number(terms: [f64; 4]) -> u8 {
    let mut kept = two();
    let number = lapse(&mut kept, 1, terms).number;
    assert_eq!(kept == two(), number != 0);
    number
}

/// The next value of f64, and the one before; of values above zero.
fn up(value: f64) -> f64 {
    f64::from_bits(value.to_bits() + 1)
}

fn down(value: f64) -> f64 {
    f64::from_bits(value.to_bits() - 1)
}

#[test]
fn leaves_when_the_wait_is_over() {
    assert_eq!(number([30.0, 0.5, 100.0, 145.0]), 0);
    assert_eq!(number([30.0, 0.5, 100.0, down(145.0)]), 25);
    assert_eq!(number([30.0, 0.5, 100.0, up(145.0)]), 0);
    assert_eq!(number([30.0, 0.0, 100.0, 130.0]), 0);
    assert_eq!(number([30.0, 0.0, 100.0, down(130.0)]), 25);
    assert_eq!(number([30.0, 0.5, 145.0, 100.0]), 25, "the clock went back");
    assert_eq!(number([30.0, 0.5, 100.0, 100.0]), 25);
}

#[test]
fn it_does_what_leaving_does() {
    let (mut lapsed, mut left) = (two(), two());
    let answer = lapse(&mut lapsed, 1, [30.0, 0.5, 100.0, 145.0]);
    assert_eq!(answer, left.lend(|queue| queue.leave(1 << 16)));
    assert_eq!(lapsed, left);
}

#[test]
fn a_refusal_tells_of_the_queue() {
    for (terms, number) in [
        ([30.0, 0.5, 100.0, 101.0], 25),
        ([0.0, 0.5, 100.0, 145.0], 21),
    ] {
        let answer = lapse(&mut two(), 2, terms);
        assert_eq!(
            (answer.number, answer.holds, answer.looked_at),
            (number, true, 2)
        );
        assert_eq!(answer.largest, two().largest);
    }
    let answer = lapse(&mut two(), 9, [30.0, 0.5, 100.0, 145.0]);
    assert_eq!(
        (answer.number, answer.holds, answer.looked_at),
        (15, false, 2)
    );
}

#[test]
fn the_order_is_10_21_15_25() {
    let mut bad = two();
    bad.count = 4;
    assert_eq!(
        lapse(&mut bad, 9, [0.0, 9.0, -1.0, -1.0]),
        QueueAnswer {
            number: 10,
            ..QueueAnswer::default()
        }
    );
    assert_eq!(lapse(&mut two(), 9, [0.0, 0.5, 9.0, 1.0]).number, 21);
    assert_eq!(lapse(&mut two(), 9, [30.0, 0.5, 9.0, 1.0]).number, 15);
    assert_eq!(lapse(&mut two(), 1, [30.0, 0.5, 9.0, 1.0]).number, 25);
}

#[test]
fn limits_of_the_period_and_the_drift() {
    let least = f64::from_bits(1);
    for (period, expected) in [
        (0.0, 21),
        (-0.0, 21),
        (-least, 21),
        (-30.0, 21),
        (least, 0),
        (f64::MIN_POSITIVE, 0),
        (down(86_400.0), 0),
        (86_400.0, 0),
        (up(86_400.0), 21),
    ] {
        assert_eq!(number([period, 0.0, 0.0, 1.0e9]), expected, "{period:e}");
    }
    for (drift, expected) in [
        (0.0, 0),
        (-0.0, 0),
        (-least, 21),
        (least, 0),
        (down(0.5), 0),
        (0.5, 0),
        (up(0.5), 21),
    ] {
        assert_eq!(number([30.0, drift, 0.0, 1.0e9]), expected, "{drift:e}");
    }
}

#[test]
fn limits_of_the_times() {
    let least = f64::from_bits(1);
    for (time, expected) in [
        (0.0, 0),
        (-0.0, 0),
        (-least, 21),
        (1.0e9, 25),
        (up(1.0e9), 21),
    ] {
        assert_eq!(number([30.0, 0.0, time, 30.0]), expected, "{time:e}");
    }
    for (time, expected) in [
        (-0.0, 25),
        (-least, 21),
        (down(1.0e9), 0),
        (1.0e9, 0),
        (up(1.0e9), 21),
    ] {
        assert_eq!(number([30.0, 0.0, 0.0, time]), expected, "{time:e}");
    }
}

#[test]
fn what_is_no_number_gets_21() {
    let fine = [30.0, 0.5, 100.0, 145.0];
    for bits in [0x7ff8 << 48, (0x7ff0 << 48) + 1, 0xfff8 << 48, u64::MAX] {
        for at in 0..4 {
            let mut terms = fine;
            terms[at] = f64::from_bits(bits);
            assert_eq!(number(terms), 21);
        }
    }
    for infinite in [f64::INFINITY, f64::NEG_INFINITY] {
        for at in 0..4 {
            let mut terms = fine;
            terms[at] = infinite;
            assert_eq!(number(terms), 21);
        }
    }
}

#[test]
fn each_operation_is_rounded_once() {
    // The difference is below 45, and rounds to it.
    assert_eq!(number([30.0, 0.5, 2.0_f64.powi(-60), 45.0]), 0);
    // 1 and the drift round to 1, or one step above it.
    let small = 2.0_f64.powi(-53);
    assert_eq!(number([30.0, small, 0.0, 30.0]), 0);
    assert_eq!(number([30.0, up(small), 0.0, 30.0]), 25);
}
