//! Lists of turns from an empty queue, in which desks that stand ask again and
//! silent ones are taken out; and what the accepted turns of such a list make of the queue.

use second::generate;
use second::random::Random;
use second::short::Kept;
use second::stamp::stamp;
use second::{Pair, Place, Turn};

use crate::coverage::{Kind, Run};
use crate::lapses;
use crate::queues::turn;
use crate::run::{same, Compared};

/// A list of turns on a queue of so many places. It starts empty, whatever the
/// places hold. After each turn the largest pair and the standing entries are
/// those of the accepted turns.
pub fn course(run: &mut Run, random: &mut Random, length: usize) -> Compared<()> {
    let mut queue = Kept::new(length, &[]);
    queue.places.fill_with(|| generate::place(random));
    let mut accepted = Vec::new();
    for time in 2..60 {
        let entry = queue.clone();
        let taken = next(random, &entry, time);
        let (number, fields) = match taken {
            Turn::Leave(desk) if random.one_in(2) => {
                // For those who stand on, leaving by lease is leaving.
                let silence = lapses::silence(random, desk);
                lapses::lapse(run, &mut queue, silence)?
            }
            _ => turn(run, &mut queue, taken)?,
        };
        if let Turn::Ask(asked) = taken {
            note(run, &entry, asked, number, fields[0] == 1);
        }
        if number == 0 {
            accepted.push(taken);
        }
        let input = || format!("  accepted: {accepted:x?}\n");
        same("largest accepted", queue.largest, largest(&accepted), input)?;
        let standing = &queue.places[..queue.count];
        same("who stands", standing.to_vec(), lasting(&accepted), input)?;
        run.seen_at(Kind::Courses, length - 1);
    }
    Ok(())
}

/// The next turn: mostly of a desk that stands, with stamps near the largest.
fn next(random: &mut Random, queue: &Kept, time: u32) -> Turn {
    let standing = queue.places[..queue.count].iter();
    let desks: Vec<u32> = standing.filter_map(|place| place.desk()).collect();
    let desk = match random.one_in(3) {
        true => random.between(1, 40) as u32 * 65_536,
        false => random.pick(&desks).max(65_536),
    };
    let about = |random: &mut Random, time: u64| {
        let earlier = random.pick(&[0, 0, 0, 1]);
        time.saturating_sub(earlier).max(1) << 32 | u64::from(desk)
    };
    let near = |random: &mut Random, stamp: u64| match random.below(4) {
        0 => stamp.saturating_sub(1),
        1 => stamp.saturating_add(1),
        _ => stamp,
    };
    let Pair { s, x } = queue.largest;
    match random.below(8) {
        0 => Turn::Leave(desk),
        1..=3 => {
            let other = stamp(time / 2, random.between(1, 40) as u16, 0);
            let carried = random.pick(&[x, other, u64::from(time / 2) << 32 | u64::from(desk)]);
            let carried = near(random, carried);
            Turn::Ask(Place::new(1, about(random, time.into()), carried.max(x)))
        }
        4..=6 => Turn::Ask(Place::new(2, near(random, s), about(random, x >> 32))),
        _ => Turn::Ask(Place::new(2, s, about(random, time.into()))),
    }
}

/// Counts an ask of a desk that stands.
fn note(run: &mut Run, queue: &Kept, asked: Place, number: u8, holds: bool) {
    let mut standing = queue.places[..queue.count].iter();
    let own = standing.find(|place| asked.desk().is_some() && place.desk() == asked.desk());
    let Some(own) = own.filter(|_| number != 10) else {
        return;
    };
    if (own.mode, asked.mode) != (1, 2) {
        let at = usize::from(own.mode == 2) + usize::from(asked.mode == 2);
        return run.seen_at(Kind::Twelves, at);
    }
    run.seen_at(Kind::Upgrades, usize::from(number == 0));
    if number == 0 && holds {
        run.seen_at(Kind::Upgrades, 2);
    }
    if number == 0 && queue.count == queue.places.len() {
        run.seen_at(Kind::Upgrades, 3);
    }
    let edge = |run: &mut Run, kind, stamp: u64, largest: u64| {
        let places = [largest, largest.wrapping_sub(1), largest.wrapping_add(1)];
        let at = places.iter().position(|place| *place == stamp);
        at.into_iter().for_each(|at| run.seen_at(kind, at));
    };
    edge(run, Kind::UpgradeShared, asked.pair.s, queue.largest.s);
    edge(run, Kind::UpgradeExclusive, asked.pair.x, queue.largest.x);
}

/// The largest s and the largest x that were asked with.
fn largest(accepted: &[Turn]) -> Pair {
    let pairs = accepted.iter().filter_map(|turn| match turn {
        Turn::Ask(asked) => Some(asked.pair),
        Turn::Leave(_) => None,
    });
    let (s, x): (Vec<u64>, Vec<u64>) = pairs.map(|pair| (pair.s, pair.x)).unzip();
    let most = |stamps: Vec<u64>| stamps.into_iter().max().unwrap_or_default();
    Pair::new(most(s), most(x))
}

/// The entries that were asked with and whose desk took no later turn.
fn lasting(accepted: &[Turn]) -> Vec<Place> {
    let desk = |turn: &Turn| match turn {
        Turn::Ask(asked) => asked.desk(),
        Turn::Leave(desk) => Some(*desk),
    };
    let mut entries = Vec::new();
    for (at, taken) in accepted.iter().enumerate() {
        let later = accepted[at + 1..]
            .iter()
            .any(|turn| desk(turn) == desk(taken));
        if let (Turn::Ask(asked), false) = (taken, later) {
            entries.push(*asked);
        }
    }
    entries
}
