//! Lock queues of 0 to 33 places, good and bad, and chains of asks and leaves.

use lupaniele::raw::Places;
use second::generate;
use second::random::Random;
use second::short::Kept;
use second::stamp::{desk_and_start, is_valid, stamp};
use second::{Place, Queue, Turn};

use crate::coverage::{Kind, Run};
use crate::proved::{self, QueueAnswer};
use crate::run::{same, Compared};

/// A request to a queue by both, which is told as text: compares the answer and
/// the whole queue after it.
pub fn by_both(
    run: &mut Run,
    queue: &mut Kept,
    request: impl Fn() -> String,
    proved: impl FnOnce(&mut Places) -> QueueAnswer,
    second: impl FnOnce(&mut Queue) -> second::QueueAnswer,
) -> Compared<QueueAnswer> {
    let entry = queue.clone();
    let input = || format!("  queue: {entry:x?}\n  {}\n", request());
    let mut lent = proved::lent(queue);
    let proved = proved(&mut lent);
    let second = queue.lend(second);
    let told = (second.number, second.numbers());
    same("queue's answer", proved, told, input)?;
    same("queue after", lent, proved::lent(queue), input)?;
    run.number(proved.0);
    Ok(proved)
}

/// A turn by both.
pub fn turn(run: &mut Run, queue: &mut Kept, turn: Turn) -> Compared<QueueAnswer> {
    let request = || format!("turn: {turn:x?}");
    let proved = |queue: &mut Places| proved::turn(queue, turn);
    let proved = by_both(run, queue, request, proved, |queue| queue.turn(turn))?;
    if let (0, [1, ..]) = proved {
        run.seen(Kind::Holding);
    }
    Ok(proved)
}

/// Counts a queue that is bad for one reason alone.
fn note_fault(run: &mut Run, queue: &Kept) {
    let Kept {
        places,
        count,
        largest,
    } = queue;
    let standing = &places[..places.len().min(*count)];
    let twice = |(at, place): (usize, &Place)| {
        let earlier = &standing[..at];
        earlier.iter().any(|other| own(*other) == own(*place))
    };
    let faults = [
        !(1..=32).contains(&places.len()),
        *count > places.len(),
        !is_valid(largest.s),
        !is_valid(largest.x),
        standing.iter().any(|place| place.desk().is_none()),
        standing.iter().enumerate().any(twice),
        standing.iter().any(|place| place.pair.s > largest.s),
        standing.iter().any(|place| place.pair.x > largest.x),
    ];
    let mut found = (0..).zip(faults).filter(|(_, fault)| *fault);
    if let (Some((at, _)), None) = (found.next(), found.next()) {
        run.seen_at(Kind::BadQueues, at);
    }
}

/// Turns on queues of any sort.
pub fn any(run: &mut Run, random: &mut Random) -> Compared<()> {
    for _ in 0..40 {
        let length = random.index(34);
        let mut queue = match random.one_in(3) {
            true => generate::queue_of(random, length),
            false => generate::queue(random),
        };
        note_fault(run, &queue);
        let standing: Vec<u32> = queue.places.iter().map(|place| own(*place)).collect();
        for _ in 0..3 {
            let leaver = random.pick(&standing);
            let taken = match random.below(4) {
                0 => Turn::Leave(desk_and_start(generate::any_stamp(random))),
                1 => Turn::Leave(leaver),
                _ => Turn::Ask(generate::place(random)),
            };
            turn(run, &mut queue, taken)?;
            run.seen_at(Kind::Queues, queue.places.len());
        }
    }
    Ok(())
}

/// The low half of the mode's own stamp.
fn own(place: Place) -> u32 {
    desk_and_start(if place.mode == 2 {
        place.pair.x
    } else {
        place.pair.s
    })
}

/// A chain of asks and leaves on a queue of so many places that starts empty,
/// with stamps that mostly rise.
pub fn chain(run: &mut Run, random: &mut Random, length: usize) -> Compared<()> {
    let mut queue = Kept::new(length, &[]);
    let mut standing = vec![0];
    for time in 1..100 {
        let (desk, start) = (random.between(1, 50) as u16, random.pick(&[0, 0, 0, 1]));
        let earlier = random.below(3).saturating_sub(1) as u32;
        let stamp = stamp(time - earlier.min(time), desk, start);
        let taken = match random.below(5) {
            0 => Turn::Leave(random.pick(&standing)),
            1 => Turn::Leave(desk_and_start(stamp)),
            2 => Turn::Ask(Place::new(2, queue.largest.s, stamp)),
            3 => Turn::Ask(generate::place(random)),
            _ => Turn::Ask(Place::new(1, stamp, queue.largest.x)),
        };
        let (number, _) = turn(run, &mut queue, taken)?;
        run.seen_at(Kind::Chains, length - 1);
        if let (Turn::Ask(asked), 0) = (taken, number) {
            standing.push(own(asked));
        }
    }
    Ok(())
}
