//! What a desk knows of a card and what it proposes, by both.

use lupaniele::raw;
use second::random::Random;
use second::stamp::stamp;
use second::{Known, Pair};

use crate::coverage::{Kind, Run};
use crate::run::{same, Compared};

/// What a pair's array holds before it is written.
const UNWRITTEN: [u64; 2] = [0x5a5a_5a5a, 0xa5a5_a5a5];

/// What a desk knows of a card, as the second program keeps it; the proved
/// library is held to it at every call.
#[derive(Clone, Copy, Debug)]
pub struct Knowing(pub Known);

impl Knowing {
    /// A desk and start that knows nothing.
    pub fn nothing(desk: u16, start: u16) -> Knowing {
        Knowing(Known::nothing(desk, start))
    }

    /// It learns a pair.
    pub fn learn(&mut self, run: &mut Run, pair: Pair) -> Compared<()> {
        let entry = *self;
        let input = || format!("  known: {entry:x?}\n  learnt: {pair:x?}\n");
        let mut proved = [entry.0.pair.s, entry.0.pair.x];
        raw::learn(&mut proved, pair.s, pair.x);
        self.0.learn(pair);
        same("known after learning", proved, self.numbers(), input)?;
        run.case();
        let Pair { s, x } = entry.0.pair;
        let at = usize::from(pair.s > s) + 2 * usize::from(pair.x > x);
        run.seen_at(Kind::Learnt, at);
        Ok(())
    }

    /// It proposes, in the mode with this number.
    pub fn propose(&mut self, run: &mut Run, mode: u8) -> Compared<Result<Pair, u8>> {
        let Knowing(entry) = *self;
        let input = || format!("  known: {entry:x?}\n  mode: {mode}\n");
        let (mut known, mut pair) = ([entry.pair.s, entry.pair.x], UNWRITTEN);
        let number = raw::propose(entry.desk, entry.start, &mut known, mode, &mut pair);
        let second = self.0.propose(mode);
        let told = second.map_or_else(|number| number, |_| 0);
        same("proposal's number", number, told, input)?;
        let written = second.map_or(UNWRITTEN, |pair| [pair.s, pair.x]);
        same("proposed pair", pair, written, input)?;
        same("known after a proposal", known, self.numbers(), input)?;
        run.number(number);
        note(run, entry, mode, second);
        Ok(second)
    }

    fn numbers(&self) -> [u64; 2] {
        [self.0.pair.s, self.0.pair.x]
    }
}

/// Counts a proposal by its number and its mode, and by its T.
fn note(run: &mut Run, entry: Known, mode: u8, made: Result<Pair, u8>) {
    let at = match made {
        Ok(_) => usize::from(mode == 2),
        Err(1) => 2,
        Err(_) => 3,
    };
    run.seen_at(Kind::Proposals, at);
    let Ok(pair) = made else {
        return;
    };
    let (own, known) = match mode {
        2 => (pair.x, entry.pair.x),
        _ => (pair.s, entry.pair.s),
    };
    run.seen_at(Kind::ProposalTimes, usize::from(own >> 32 != known >> 32));
    if own >> 32 == u32::MAX.into() {
        run.seen_at(Kind::ProposalTimes, 2);
    }
}

/// Desks that know pairs of any sort, mostly near their own stamps, learn and
/// propose.
pub fn any(run: &mut Run, random: &mut Random) -> Compared<()> {
    for _ in 0..20 {
        let desk = random.pick(&[0, 1, 2, 2, 3, 0x8000, u16::MAX]);
        let start = random.pick(&[0, 0, 1, 5, u16::MAX]);
        let mut knowing = Knowing::nothing(desk, start);
        for _ in 0..3 {
            let heard = Pair::new(near(random, desk, start), near(random, desk, start));
            knowing.learn(run, heard)?;
            let mode = random.pick(&[0, 1, 1, 1, 2, 2, 2, 3, 255]);
            let _ = knowing.propose(run, mode)?;
        }
    }
    Ok(())
}

/// A number near a stamp of this desk and start, or any.
fn near(random: &mut Random, desk: u16, start: u16) -> u64 {
    let time = random.pick(&[0, 0, 1, 7, 0x8000_0000, u32::MAX - 1, u32::MAX]);
    let other = random.pick(&[1, 2, 3, u16::MAX]);
    let own = stamp(time, desk, start);
    match random.below(8) {
        0 => 0,
        1 => random.number(),
        2 => stamp(time, other, start),
        3 => own.saturating_sub(1),
        4 => own.saturating_add(1),
        _ => own,
    }
}
