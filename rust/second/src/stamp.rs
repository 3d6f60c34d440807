//! Stamps, pairs, modes, commit marks and sessions (rules 1.1 to 1.7).

/// The stamp T.desk.start: T in the upper 32 bits, then desk and start in 16
/// each (rule 1.1).
pub fn stamp(time: u32, desk: u16, start: u16) -> u64 {
    u64::from(time) << 32 | u64::from(desk) << 16 | u64::from(start)
}

/// How far a T may be above the stored one (rule 4.9).
pub const MOST_AHEAD: u32 = 1_000_000;

/// The T of a stamp.
pub fn time(stamp: u64) -> u32 {
    (stamp >> 32) as u32
}

/// Whether a stamp is too far ahead of the stored one (rule 4.9); zero never
/// is.
fn is_too_far(stamp: u64, stored: u64) -> bool {
    let more = time(stamp).checked_sub(time(stored));
    stamp != 0 && more.is_some_and(|more| more > MOST_AHEAD)
}

/// Whether this is no stamp or a valid one (rule 1.2).
pub fn is_valid(stamp: u64) -> bool {
    stamp == 0 || desk_and_start(stamp) >> 16 >= 1
}

/// The desk and start of a stamp, as one number with the desk highest.
pub fn desk_and_start(stamp: u64) -> u32 {
    (stamp & 0xffff_ffff) as u32
}

/// A pair (rule 1.3).
#[derive(Clone, Copy, Debug, Default, PartialEq, Eq, Hash)]
pub struct Pair {
    /// The shared stamp.
    pub s: u64,
    /// The exclusive stamp.
    pub x: u64,
}

impl Pair {
    /// The pair of these two stamps.
    pub fn new(s: u64, x: u64) -> Pair {
        Pair { s, x }
    }

    /// Whether both stamps are valid.
    pub fn is_valid(self) -> bool {
        is_valid(self.s) && is_valid(self.x)
    }

    /// Whether one of the two stamps is too far ahead of the same stored one.
    pub fn is_too_far_ahead(self, stored: Pair) -> bool {
        is_too_far(self.s, stored.s) || is_too_far(self.x, stored.x)
    }

    /// The larger of each stamp.
    pub fn larger(self, other: Pair) -> Pair {
        Pair::new(self.s.max(other.s), self.x.max(other.x))
    }
}

/// The mode of a command or of a place in the queue.
#[derive(Clone, Copy, Debug, PartialEq, Eq, Hash)]
pub enum Mode {
    /// Mode 1.
    Shared,
    /// Mode 2.
    Exclusive,
}

impl Mode {
    /// The mode with this number: 1 shared, 2 exclusive.
    pub fn from_number(number: u8) -> Option<Mode> {
        match number {
            1 => Some(Mode::Shared),
            2 => Some(Mode::Exclusive),
            _ => None,
        }
    }

    /// The number of this mode.
    pub fn number(self) -> u8 {
        match self {
            Mode::Shared => 1,
            Mode::Exclusive => 2,
        }
    }

    /// The mode's own stamp (rule 1.4).
    pub fn own_stamp(self, pair: Pair) -> u64 {
        match self {
            Mode::Shared => pair.s,
            Mode::Exclusive => pair.x,
        }
    }

    /// The desk and start in the mode's own stamp, or none if the pair is
    /// malformed for this mode: a stamp not valid, or the own stamp zero.
    pub fn desk(self, pair: Pair) -> Option<u32> {
        let own = self.own_stamp(pair);
        (pair.is_valid() && own != 0).then(|| desk_and_start(own))
    }

    /// What makes a command stale and an ask denied (rules 4.2 and 7.7).
    pub fn is_below(self, pair: Pair, largest: Pair) -> bool {
        match self {
            Mode::Shared => pair.x < largest.x,
            Mode::Exclusive => pair.s < largest.s || pair.x < largest.x,
        }
    }
}

/// A commit mark: a desk and its transaction.
#[derive(Clone, Copy, Debug, Default, PartialEq, Eq, Hash)]
pub struct Mark {
    /// The commit desk.
    pub desk: u16,
    /// The commit transaction.
    pub transaction: u32,
}

impl Mark {
    /// The mark of this desk and transaction.
    pub fn new(desk: u16, transaction: u32) -> Mark {
        Mark { desk, transaction }
    }

    /// Whether this mark, as the expected one, passes the stored one (rule
    /// 4.3).
    pub fn passes(self, stored: Mark) -> bool {
        self.desk == stored.desk && self.transaction >= stored.transaction
    }

    /// Whether this is no mark or a whole one (rule 1.7).
    pub fn is_valid(self) -> bool {
        (self.desk == 0) == (self.transaction == 0)
    }
}

/// What tells a session (rule 1.6).
#[derive(Clone, Copy, Debug, PartialEq, Eq, Hash)]
pub struct Session {
    /// The card, from 0.
    pub card: u16,
    /// The desk and start in the mode's own stamp.
    pub desk: u32,
    /// The mode.
    pub mode: Mode,
    /// The pair.
    pub pair: Pair,
}
