use crate::raw::Places;
use crate::{DeskId, Mode, Number, Pair};

/// The lock queue of one card, which its manager keeps (section 7 of the rules).
///
/// ```
/// use lupaniele::{Mode, Number, Pair, Queue, Stamp};
///
/// let mut queue = Queue::new(2)?;
/// let (first, second) = (Stamp::new(1, 1, 0), Stamp::new(2, 2, 0));
/// assert!(queue.ask(Mode::Shared, Pair::new(first, Stamp::NONE)).holds);
/// assert!(queue.ask(Mode::Shared, Pair::new(second, Stamp::NONE)).holds);
///
/// // Desk 1 upgrades: denied with too small an s, then behind desk 2.
/// let denied = queue.ask(Mode::Exclusive, Pair::new(first, first));
/// assert_eq!(denied.number, Number::PairDenied);
/// let upgraded = queue.ask(Mode::Exclusive, Pair::new(denied.largest.s, first));
/// assert!(upgraded.is_accepted() && !upgraded.holds);
/// assert!(queue.leave(second.desk_id()).is_accepted());
/// # Ok::<(), Number>(())
/// ```
#[derive(Clone, Debug, PartialEq, Eq)]
pub struct Queue(Places);

impl Queue {
    /// An empty queue with so many places.
    ///
    /// # Errors
    ///
    /// [`Number::BadQueue`] unless they are 1 to 32.
    ///
    /// ```
    /// use lupaniele::{Number, Queue};
    /// assert!(Queue::new(32).is_ok());
    /// assert_eq!(Queue::new(33), Err(Number::BadQueue));
    /// ```
    pub fn new(places: u64) -> Result<Queue, Number> {
        let mut queue = Queue(Places {
            places,
            ..Places::default()
        });
        // Nobody stands in it; so a good one says that this desk does not.
        match queue.leave(DeskId::default()).number {
            Number::NotStanding => Ok(queue),
            bad => Err(bad),
        }
    }

    /// A desk asks for the lock, or upgrades (rules 7.6 to 7.10).
    ///
    /// ```
    /// use lupaniele::{Mode, Pair, Queue, Stamp};
    /// let answer = Queue::new(1)?.ask(Mode::Shared, Pair::new(Stamp::new(1, 1, 0), Stamp::NONE));
    /// assert!(answer.is_accepted() && answer.holds);
    /// # Ok::<(), lupaniele::Number>(())
    /// ```
    pub fn ask(&mut self, mode: Mode, pair: Pair) -> QueueAnswer {
        let ([s, x], mut fields) = (pair.numbers(), [0; 4]);
        let number = self.0.ask(mode.number(), s, x, &mut fields);
        QueueAnswer::given(number, fields)
    }

    /// A desk leaves (rules 7.12 and 7.13).
    ///
    /// ```
    /// use lupaniele::{DeskId, Number, Queue};
    /// let mut queue = Queue::new(1)?;
    /// assert_eq!(queue.leave(DeskId::new(1, 0)).number, Number::NotStanding);
    /// # Ok::<(), Number>(())
    /// ```
    pub fn leave(&mut self, desk: DeskId) -> QueueAnswer {
        let mut fields = [0; 4];
        let number = self.0.leave(desk.number(), &mut fields);
        QueueAnswer::given(number, fields)
    }

    /// A desk that fell silent leaves, once its lease is over (section 13 of the rules).
    ///
    /// ```
    /// use lupaniele::{Lease, Mode, Number, Pair, Queue, Stamp};
    /// let (mut queue, stamp) = (Queue::new(1)?, Stamp::new(1, 1, 0));
    /// assert!(queue.ask(Mode::Exclusive, Pair::new(Stamp::NONE, stamp)).holds);
    /// let lease = Lease { period: 30.0, drift: 0.5, begin: 100.0, now: 144.0 };
    /// assert_eq!(queue.lapse(stamp.desk_id(), lease).number, Number::LeaseRuns);
    /// let over = Lease { now: 145.0, ..lease };
    /// assert!(queue.lapse(stamp.desk_id(), over).is_accepted());
    /// # Ok::<(), Number>(())
    /// ```
    pub fn lapse(&mut self, desk: DeskId, lease: Lease) -> QueueAnswer {
        let mut fields = [0; 4];
        let number = self.0.lapse(desk.number(), lease, &mut fields);
        QueueAnswer::given(number, fields)
    }

    /// Who stands in it, the first in front: mode and pair of each.
    ///
    /// ```
    /// use lupaniele::{Mode, Pair, Queue, Stamp};
    /// let (mut queue, pair) = (Queue::new(2)?, Pair::new(Stamp::new(1, 1, 0), Stamp::NONE));
    /// assert!(queue.ask(Mode::Shared, pair).holds);
    /// assert!(queue.standing().eq([(Mode::Shared, pair)]));
    /// # Ok::<(), lupaniele::Number>(())
    /// ```
    pub fn standing(&self) -> impl Iterator<Item = (Mode, Pair)> + '_ {
        let Places {
            modes, s, x, kept, ..
        } = &self.0;
        let count = usize::try_from(kept[0]).unwrap_or(modes.len());
        let places = modes.iter().zip(s.iter().zip(x));
        places.take(count).filter_map(|(mode, (s, x))| {
            let mode = Mode::from_number(*mode)?;
            Some((mode, Pair::of([*s, *x])))
        })
    }

    /// The largest s and the largest x that were ever accepted in it.
    ///
    /// ```
    /// use lupaniele::{Pair, Queue};
    /// assert_eq!(Queue::new(2)?.largest(), Pair::NONE);
    /// # Ok::<(), lupaniele::Number>(())
    /// ```
    #[must_use]
    pub fn largest(&self) -> Pair {
        let [_, s, x] = self.0.kept;
        Pair::of([s, x])
    }
}

/// A lease term and two times, all in one unit (rules 13.1 to 13.4).
///
/// ```
/// let lease = lupaniele::Lease { period: 30.0, drift: 0.1, begin: 0.0, now: 33.0 };
/// assert_eq!(lease.period, 30.0);
/// ```
#[derive(Clone, Copy, Debug, PartialEq)]
pub struct Lease {
    /// How long a lease is.
    pub period: f64,
    /// By how much clocks may run apart.
    pub drift: f64,
    /// Since when the desk is held failed.
    pub begin: f64,
    /// The time now.
    pub now: f64,
}

/// A queue's answer (rule 7.14).
///
/// ```
/// use lupaniele::{Mode, Number, Pair, Queue};
/// let answer = Queue::new(1)?.ask(Mode::Shared, Pair::NONE);
/// assert_eq!(answer.number, Number::Malformed);
/// assert_eq!((answer.holds, answer.looked_at), (false, 0));
/// # Ok::<(), Number>(())
/// ```
#[derive(Clone, Copy, Debug, PartialEq, Eq)]
#[must_use = "an answer says whether the desk holds the lock"]
pub struct QueueAnswer {
    /// The number.
    pub number: Number,
    /// Whether the desk holds the lock now.
    pub holds: bool,
    /// The largest pair of the queue now.
    pub largest: Pair,
    /// How many entries were looked at.
    pub looked_at: u64,
}

impl QueueAnswer {
    fn given(number: u8, [holds, s, x, looked_at]: [u64; 4]) -> QueueAnswer {
        QueueAnswer {
            number: Number::given(number),
            holds: holds == 1,
            largest: Pair::of([s, x]),
            looked_at,
        }
    }

    /// Whether the request was accepted.
    ///
    /// ```
    /// use lupaniele::{Mode, Pair, Queue};
    /// assert!(!Queue::new(1)?.ask(Mode::Shared, Pair::NONE).is_accepted());
    /// # Ok::<(), lupaniele::Number>(())
    /// ```
    #[must_use]
    pub fn is_accepted(&self) -> bool {
        self.number == Number::Accepted
    }
}
