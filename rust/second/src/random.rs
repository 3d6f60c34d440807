//! A small deterministic generator of random numbers, xorshift with a
//! multiplied output, for tests and the comparison. The same seed gives the
//! same numbers everywhere.

/// The generator.
#[derive(Clone, Debug, PartialEq, Eq)]
pub struct Random {
    state: u64,
}

impl Random {
    /// A generator for any seed, zero too.
    pub fn new(seed: u64) -> Random {
        let mixed = (seed ^ seed >> 30).wrapping_mul(0xbf58_476d_1ce4_e5b9);
        let state = (mixed ^ mixed >> 27) ^ 0x9e37_79b9_7f4a_7c15;
        Random {
            state: state.max(1),
        }
    }

    /// Any 64-bit number.
    pub fn number(&mut self) -> u64 {
        self.state ^= self.state >> 12;
        self.state ^= self.state << 25;
        self.state ^= self.state >> 27;
        self.state.wrapping_mul(0x2545_f491_4f6c_dd1d)
    }

    /// A number below the limit; zero if the limit is zero.
    pub fn below(&mut self, limit: u64) -> u64 {
        (u128::from(self.number()).wrapping_mul(limit.into()) >> 64) as u64
    }

    /// A number from `low` to `high`, both included; `low` if `high` is less.
    pub fn between(&mut self, low: u64, high: u64) -> u64 {
        match high.saturating_sub(low).checked_add(1) {
            Some(width) => low.saturating_add(self.below(width)),
            None => self.number(),
        }
    }

    /// An index or size below the limit; zero if the limit is zero.
    pub fn index(&mut self, limit: usize) -> usize {
        self.below(limit as u64) as usize
    }

    /// True once in so many calls on average.
    pub fn one_in(&mut self, calls: u64) -> bool {
        self.below(calls) == 0
    }

    /// Any byte.
    pub fn byte(&mut self) -> u8 {
        (self.number() >> 56) as u8
    }

    /// So many bytes, any of them.
    pub fn bytes(&mut self, length: usize) -> Vec<u8> {
        (0..length).map(|_| self.byte()).collect()
    }

    /// One of these choices, or the type's default if there are none.
    pub fn pick<T: Copy + Default>(&mut self, choices: &[T]) -> T {
        let index = self.index(choices.len());
        choices.get(index).copied().unwrap_or_default()
    }
}
