use crate::{Answer, Number, raw};

/// What a desk has seen of a card (rule 16.24): the answer to the command that it last sent for it.
///
/// ```
/// use lupaniele::desk::{NextStep, Seen};
/// use lupaniele::{Command, Image, Mark, Pair, Stamp, Version};
/// let mut store = Image::make(Version::One, 1, 16)?;
/// let pair = Pair::new(Stamp::NONE, Stamp::new(1, 1, 0));
/// let prepare = Command::verify(0).exclusive(pair).leaving(Mark::new(1, 1));
/// let answer = store.answer(&prepare, &mut [])?;
/// assert_ne!(Seen::heard(NextStep::Prepare, &answer), Seen::heard(NextStep::Look, &answer));
/// # Ok::<(), Box<dyn std::error::Error>>(())
/// ```
#[derive(Clone, Copy, Debug, Default, PartialEq, Eq, Hash)]
pub struct Seen {
    numbers: [u16; 4],
}

impl Seen {
    /// Nothing: no command was sent for the card, or the last one is not answered.
    ///
    /// ```
    /// use lupaniele::desk::Seen;
    /// assert_eq!(Seen::NOTHING, Seen::default());
    /// ```
    pub const NOTHING: Seen = Seen { numbers: [0; 4] };

    /// What the answer to a step tells. A command that is no step of a transaction counts as a look.
    ///
    /// ```
    /// use lupaniele::desk::{NextStep, Seen};
    /// use lupaniele::{Image, Version};
    /// let answer = Image::make(Version::One, 1, 16)?.answer_bytes(&[], &mut []);
    /// assert_eq!(Seen::heard(NextStep::Look, &answer), Seen::NOTHING); // malformed: no entry is shown
    /// # Ok::<(), lupaniele::Number>(())
    /// ```
    #[must_use]
    pub fn heard(step: NextStep, answer: &Answer) -> Seen {
        Seen::by(step, answer.number, answer.mark.desk)
    }

    /// What is seen of a card that bears this desk's mark, once a step was accepted.
    pub(crate) fn accepted(step: NextStep, mark: u16) -> Seen {
        Seen::by(step, Number::Accepted, mark)
    }

    fn by(step: NextStep, number: Number, mark: u16) -> Seen {
        let (step, line) = step.in_numbers();
        let mut seen = Seen::NOTHING;
        raw::heard(step, line, number as u8, mark, &mut seen.numbers);
        seen
    }
}

/// The next step of a transaction for a card (rule 16.25).
///
/// ```
/// use lupaniele::desk::{NextStep, Seen};
/// use lupaniele::{Log, Record, Side};
/// let mut log = Log::empty(4_096)?;
/// log.append(&Record::Begin(1))?;
/// log.append(&Record::Update { card: 0, side: Side::Original, text: b"205" })?;
/// assert_eq!(NextStep::of(&log, 5, 0, true, Seen::NOTHING), NextStep::Look);
/// # Ok::<(), lupaniele::Number>(())
/// ```
#[derive(Clone, Copy, Debug, PartialEq, Eq, Hash)]
pub enum NextStep {
    /// Nothing is to be done.
    Nothing,
    /// A command without the desk's mark is to be sent, for its answer.
    Look,
    /// The card is to get the desk's mark.
    Prepare,
    /// The card is held, and waits for the commit.
    Ready,
    /// This line of the log is to be written.
    Write {
        /// The line, from 0.
        line: u8,
    },
    /// The mark is to be taken off.
    Release,
    /// The card is to be noted as synced.
    Note {
        /// The transaction that the record names.
        transaction: u32,
    },
    /// The card bears another desk's mark.
    Wait,
    /// The log is not good, or the desk is 0.
    Bad,
}

impl NextStep {
    /// The next step of a desk for a card, by its log, by whether it goes on with the transaction that is open, and by
    /// what it has seen of the card.
    ///
    /// ```
    /// use lupaniele::desk::{NextStep, Seen};
    /// use lupaniele::Log;
    /// assert_eq!(NextStep::of(&Log::empty(4_096)?, 0, 0, false, Seen::NOTHING), NextStep::Bad);
    /// # Ok::<(), lupaniele::Number>(())
    /// ```
    #[must_use]
    pub fn of<L: AsRef<[u8]>>(log: L, desk: u16, card: u16, going: bool, seen: Seen) -> NextStep {
        let (mut line, mut transaction) = (0, 0);
        let numbers = &seen.numbers;
        let log = log.as_ref();
        match raw::next_step(log, desk, card, going, numbers, &mut line, &mut transaction) {
            0 => NextStep::Nothing,
            1 => NextStep::Look,
            2 => NextStep::Prepare,
            3 => NextStep::Ready,
            4 => NextStep::Write { line: line as u8 },
            5 => NextStep::Release,
            6 => NextStep::Note {
                transaction: transaction as u32,
            },
            7 => NextStep::Wait,
            _ => NextStep::Bad,
        }
    }

    fn in_numbers(self) -> (u8, u8) {
        match self {
            NextStep::Nothing => (0, 0),
            NextStep::Look => (1, 0),
            NextStep::Prepare => (2, 0),
            NextStep::Ready => (3, 0),
            NextStep::Write { line } => (4, line),
            NextStep::Release => (5, 0),
            NextStep::Note { .. } => (6, 0),
            NextStep::Wait => (7, 0),
            NextStep::Bad => (8, 0),
        }
    }
}
