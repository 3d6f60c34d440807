//! By the clock: the sides take turns, and the best of many rounds counts.

use std::hint::black_box;
use std::time::{Duration, Instant};

use crate::plain;
use crate::sides::{work, Lent, Side};
use crate::workloads::{Work, Workload};
use second::Format;

/// How long the rounds of one workload go on, and how many there are at least.
const LONG: Duration = Duration::from_millis(250);
const ROUNDS: usize = 100;

/// The best times of a workload, in nanoseconds.
#[derive(Clone, Copy)]
pub struct Times {
    pub rust: f64,
    pub tuned: f64,
    pub ours: f64,
    pub limit: f64,
    /// Where an image is checked, the check that looks at every byte.
    pub at_once: Option<f64>,
}

impl Times {
    /// Ours by the straightforward version's.
    pub fn ratio(&self) -> f64 {
        self.ours / self.rust
    }
}

/// The times of every workload.
pub fn measured(all: &[Workload]) -> Vec<Times> {
    all.iter().map(times).collect()
}

fn times(workload: &Workload) -> Times {
    let mut lent = Lent::new(workload);
    let mut best = [f64::MAX; Side::ALL.len()];
    let mut at_once = f64::MAX;
    let begun = Instant::now();
    let mut round = 0;
    while round < ROUNDS || begun.elapsed() < LONG {
        for turn in 0..best.len() {
            let side = (turn + round) % best.len();
            lent.renew(workload);
            best[side] = best[side].min(time(|| {
                work(Side::ALL[side], black_box(workload), &mut lent)
            }));
        }
        if let Work::Check(format) = workload.work {
            at_once = at_once.min(time(|| {
                black_box(at_once_sound(format, black_box(&workload.image)));
            }));
        }
        round += 1;
    }
    Times {
        rust: best[0],
        tuned: best[1],
        ours: best[2],
        limit: best[3],
        at_once: matches!(workload.work, Work::Check(_)).then_some(at_once),
    }
}

/// The nanoseconds that some work takes.
pub fn time(work: impl FnOnce()) -> f64 {
    let begun = Instant::now();
    work();
    begun.elapsed().as_nanos() as f64
}

#[inline(never)]
pub fn at_once_sound(format: Format, image: &[u8]) -> bool {
    match format {
        Format::V1 => plain::is_sound(image, plain::zeros_at_once),
        Format::V2 => plain::is_sound_v2(image, plain::zeros_at_once),
    }
}
