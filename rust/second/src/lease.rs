//! Desks that fall silent (rules 13.1 to 13.7): one that is held failed loses
//! its place in the lock queue when its lease is over.

use crate::number::{BAD_QUEUE, LEASE_REFUSED, NOT_STANDING, STILL_WAITING};
use crate::queue::{Queue, QueueAnswer};

/// The longest period, the largest drift and the latest time.
const PERIOD_LIMIT: f64 = 86_400.0;
const DRIFT_LIMIT: f64 = 0.5;
const TIME_LIMIT: f64 = 1_000_000_000.0;

/// A lease term; any values at all.
#[derive(Clone, Copy, Debug, PartialEq)]
pub struct Lease {
    /// How long the lease lasts.
    pub period: f64,
    /// How much faster one clock may run than the other.
    pub drift: f64,
}

/// A desk that is held failed (rule 13.1); any values at all.
#[derive(Clone, Copy, Debug, PartialEq)]
pub struct Silence {
    /// Desk and start.
    pub desk: u32,
    /// Its lease term.
    pub lease: Lease,
    /// Since when it is held failed.
    pub begin: f64,
    /// The time now, by the same clock.
    pub now: f64,
}

impl Lease {
    /// Whether period and drift are in range (rule 13.2).
    fn is_fair(self) -> bool {
        let period = self.period > 0.0 && self.period <= PERIOD_LIMIT;
        period && (0.0..=DRIFT_LIMIT).contains(&self.drift)
    }

    /// The wait: the sum is rounded before the product (rule 13.3).
    fn wait(self) -> f64 {
        let rate = 1.0 + self.drift;
        self.period * rate
    }
}

impl Silence {
    /// Whether all four numbers are in range (rule 13.2).
    fn is_fair(self) -> bool {
        let times = [self.begin, self.now];
        let good = |time: &f64| (0.0..=TIME_LIMIT).contains(time);
        self.lease.is_fair() && times.iter().all(good)
    }

    /// Whether the lease is over (rule 13.4).
    fn is_over(self) -> bool {
        let passed = self.now - self.begin;
        passed >= self.lease.wait()
    }
}

impl Queue<'_> {
    /// Takes a silent desk out of the queue once its lease is over (rules 13.5
    /// and 13.6). Every number but 0 leaves the queue as it was.
    pub fn lapse(&mut self, silence: Silence) -> QueueAnswer {
        let number = match self.stands(silence.desk) {
            None => BAD_QUEUE,
            _ if !silence.is_fair() => LEASE_REFUSED,
            Some(false) => NOT_STANDING,
            _ if !silence.is_over() => STILL_WAITING,
            _ => return self.leave(silence.desk),
        };
        self.told(number, silence.desk)
    }
}
