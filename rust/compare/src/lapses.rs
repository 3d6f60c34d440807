//! Desks that fall silent: leases and times by their bits, near every limit, on
//! queues of any sort.

use lupaniele::raw::Places;
use second::generate;
use second::random::Random;
use second::short::Kept;
use second::stamp::desk_and_start;
use second::{Lease, Silence};

use crate::coverage::{Kind, Run};
use crate::proved::{self, QueueAnswer};
use crate::queues::by_both;
use crate::run::Compared;

/// The four numbers of a silence: period, drift, begin, now.
fn terms(silence: Silence) -> [f64; 4] {
    let Lease { period, drift } = silence.lease;
    [period, drift, silence.begin, silence.now]
}

/// A lapse by both.
pub fn lapse(run: &mut Run, queue: &mut Kept, silence: Silence) -> Compared<QueueAnswer> {
    let bits = terms(silence).map(f64::to_bits);
    let request = || format!("desk: {:x?}, {bits:x?}", silence.desk);
    let proved = |queue: &mut Places| proved::lapse(queue, silence);
    let proved = by_both(run, queue, request, proved, |queue| queue.lapse(silence))?;
    note(run, silence, proved.0);
    Ok(proved)
}

/// The limits of each of the four, and below and above them by bits.
const LIMITS: [[f64; 2]; 4] = [
    [0.0, 86_400.0],
    [0.0, 0.5],
    [0.0, 1_000_000_000.0],
    [0.0, 1_000_000_000.0],
];

/// A value and its neighbours: the one before it, it, the one behind it. Around
/// zero these are the smallest below it, zero, the smallest above it.
fn neighbours(value: f64) -> [f64; 3] {
    let bits = value.to_bits();
    match bits {
        0 => [-f64::from_bits(1), 0.0, f64::from_bits(1)],
        _ => [f64::from_bits(bits - 1), value, f64::from_bits(bits + 1)],
    }
}

/// Counts what a lapse has shown.
fn note(run: &mut Run, silence: Silence, number: u8) {
    let numbers = [0, 10, 21, 15, 25];
    let at = numbers.iter().position(|other| *other == number);
    at.into_iter().for_each(|at| run.seen_at(Kind::Lapses, at));
    if number == 10 {
        return;
    }
    for (which, (value, limits)) in terms(silence).into_iter().zip(LIMITS).enumerate() {
        let edges = limits.map(neighbours).concat();
        let bits = |edge: &f64| edge.to_bits() == value.to_bits();
        let edge = edges.iter().position(bits);
        edge.into_iter()
            .for_each(|edge| run.seen_at(Kind::LeaseLimits, which * 6 + edge));
        let special = [
            value.is_nan(),
            value == f64::INFINITY,
            value == f64::NEG_INFINITY,
            value.to_bits() == 1 << 63,
            value.is_subnormal(),
        ];
        for (at, _) in special.iter().enumerate().filter(|(_, found)| **found) {
            run.seen_at(Kind::LeaseSpecials, which * 5 + at);
        }
    }
    if matches!(number, 0 | 25) {
        note_wait(run, silence, number);
    }
}

/// Counts a lapse by how the time passed compares with the wait.
fn note_wait(run: &mut Run, silence: Silence, number: u8) {
    let Lease { period, drift } = silence.lease;
    let wait = period * (1.0 + drift);
    let passed = silence.now - silence.begin;
    let edge = neighbours(wait).iter().position(|edge| *edge == passed);
    edge.into_iter()
        .for_each(|edge| run.seen_at(Kind::Waits, edge));
    if silence.now < silence.begin {
        run.seen(Kind::ClockBack);
    }
    // The exact difference, less the rounded one (Knuth's two-sum).
    let behind = silence.now - passed;
    let ahead = passed + behind;
    let lost = (silence.now - ahead) + (behind - silence.begin);
    if number == 0 && passed == wait && lost < 0.0 {
        run.seen(Kind::RoundedOver);
    }
}

/// A value of f64 for one of the four: near its limits, special, or any bits.
fn value(random: &mut Random, which: usize) -> f64 {
    let [low, high] = LIMITS[which];
    let near = [neighbours(low), neighbours(high)].concat();
    let least = f64::from_bits(1);
    let special = [
        -0.0,
        f64::NAN,
        -f64::NAN,
        f64::from_bits((0x7ff0 << 48) + 1),
        f64::INFINITY,
        f64::NEG_INFINITY,
        f64::MIN_POSITIVE,
        f64::MIN_POSITIVE - least,
        f64::MAX,
        -1.0,
    ];
    let share = random.number() as f64 / u64::MAX as f64;
    match random.below(16) {
        0 => f64::from_bits(random.number()),
        1 => random.pick(&special),
        2 | 3 => random.pick(&near),
        _ => share * high,
    }
}

/// A silence of a desk, often with a time near the end of the wait.
pub fn silence(random: &mut Random, desk: u32) -> Silence {
    let [period, drift, begin, now] = [0, 1, 2, 3].map(|which| value(random, which));
    let small = period * 2.0_f64.powi(-(random.below(40) as i32));
    let period = random.pick(&[period, small]);
    let begin = random.pick(&[begin, begin / 65_536.0, begin * 2.0_f64.powi(-80), 0.0]);
    let ends = neighbours(begin + period * (1.0 + drift));
    let now = match random.below(4) {
        0 => now,
        1 => random.pick(&ends),
        2 => period * (1.0 + drift),
        _ => random.pick(&[ends[1], begin / 2.0]),
    };
    Silence {
        desk,
        lease: Lease { period, drift },
        begin,
        now,
    }
}

/// Lapses on queues of any sort.
pub fn any(run: &mut Run, random: &mut Random) -> Compared<()> {
    for _ in 0..20 {
        let mut queue = generate::queue(random);
        let standing = queue.places[..queue.count.min(queue.places.len())].iter();
        let desks: Vec<u32> = standing.filter_map(|place| place.desk()).collect();
        for _ in 0..3 {
            let desk = match random.one_in(8) {
                true => desk_and_start(generate::any_stamp(random)),
                false => random.pick(&desks),
            };
            let silence = silence(random, desk);
            lapse(run, &mut queue, silence)?;
        }
    }
    Ok(())
}
