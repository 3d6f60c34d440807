//! What a desk knows of a card, what it learns, and the pairs that it proposes
//! (rules 10.1 to 10.7).

use crate::number::{MALFORMED, NO_STAMP_LEFT};
use crate::stamp::{stamp, Mode, Pair};

/// A desk with its start, and the pair that it keeps for one card (rule 10.1).
#[derive(Clone, Copy, Debug, Default, PartialEq, Eq, Hash)]
pub struct Known {
    /// The desk.
    pub desk: u16,
    /// Its start number.
    pub start: u16,
    /// The largest s and the largest x.
    pub pair: Pair,
}

impl Known {
    /// A desk that has started and knows nothing.
    pub fn nothing(desk: u16, start: u16) -> Known {
        Known {
            desk,
            start,
            pair: Pair::default(),
        }
    }

    /// It learns a pair, whole (rule 10.2).
    pub fn learn(&mut self, pair: Pair) {
        self.pair = self.pair.larger(pair);
    }

    /// Proposes a pair in the mode with this number and learns it, or says
    /// which number it gets, 1 or 16, and changes nothing (rules 10.4 to 10.7).
    pub fn propose(&mut self, mode: u8) -> Result<Pair, u8> {
        let mode = Mode::from_number(mode).filter(|_| self.desk != 0);
        let mode = mode.ok_or(MALFORMED)?;
        let Pair { s, x } = self.pair;
        let pair = match mode {
            Mode::Shared => Pair::new(self.smallest_above(s).ok_or(NO_STAMP_LEFT)?, x),
            Mode::Exclusive => Pair::new(s, self.smallest_above(x).ok_or(NO_STAMP_LEFT)?),
        };
        self.learn(pair);
        Ok(pair)
    }

    /// The smallest own stamp above a number (rule 10.3), of the number's T or,
    /// where that is not enough, of the next; none if there is no next.
    fn smallest_above(&self, number: u64) -> Option<u64> {
        let first = (number >> 32) as u32;
        let times = [Some(first), first.checked_add(1)].into_iter().flatten();
        let mut stamps = times.map(|time| stamp(time, self.desk, self.start));
        stamps.find(|own| *own > number)
    }
}
