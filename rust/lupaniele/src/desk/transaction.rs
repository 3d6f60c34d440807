use std::fmt;

use crate::{
    Action, Answer, AppendError, Command, Language, Log, Mark, Mode, Number, Record, Side, Version,
};

use super::{Desk, Failed, Journal, NextStep, Original, Refusal, Seen, Store};

/// Several cards that are changed at once, all or nothing, whatever is cut (after 003, section 3.4.2): the updates go
/// to the desk's log, the cards get its mark, a commit is appended, and then the cards are written one by one; who
/// reads one of them meanwhile is turned away by the mark. [`Desk::transaction`] makes one. Of version 1, as logs are.
///
/// ```
/// use lupaniele::desk::Desk;
/// use lupaniele::{DeskId, Image, Language, Log, Version};
///
/// let mut store = Image::make(Version::One, 2, 16)?;
/// let mut log = Log::empty(4_096)?;
/// let mut desk = Desk::start(DeskId::new(1, 0));
///
/// let mut transaction = desk.transaction(&mut store, &mut log).unwrap();
/// transaction.write_both(0, b"205 C", b"401 F").unwrap();
/// transaction.write_original(1, b"190 C").unwrap();
/// transaction.commit().unwrap();
///
/// assert_eq!(desk.read_translation(&mut store, 0, Language::First), Ok(b"401 F".to_vec()));
/// # Ok::<(), lupaniele::Number>(())
/// ```
#[derive(Debug)]
pub struct Transaction<'a, S, J> {
    desk: &'a mut Desk,
    store: &'a mut S,
    journal: &'a mut J,
    number: u32,
    updates: Vec<Planned>,
    /// The cards that it read: their prepare is not tried again, since what was read may have changed.
    relied_on: Vec<u16>,
}

/// What a transaction is to write.
#[derive(Clone, Debug)]
struct Planned {
    card: u16,
    side: Side,
    /// The edition that a translation was made from; none for one whose original is written right before it.
    edition: Option<u16>,
    length: usize,
}

/// Why a transaction, or the recovery of one, is not done; and how it stands then.
///
/// ```
/// use lupaniele::Number;
/// use lupaniele::desk::{Undone, Why};
/// let undone: Undone<&str, &str> = Undone::Aborted(Why::Unwritable { card: 3, number: Number::PayloadLong });
/// assert_eq!(undone.to_string(), "nothing was changed: card 3 could not be written: text longer than the room");
/// ```
#[derive(Clone, Copy, Debug, PartialEq, Eq)]
pub enum Undone<E, J> {
    /// It is given up, and nobody ever sees anything of it.
    Aborted(Why<E, J>),
    /// Its commit may be kept or not. Read the log back; [`Desk::recover`] then does the right thing.
    Unknown(J),
    /// It is committed, and not all of it is written: [`Desk::recover`] goes on with it.
    Committed(Why<E, J>),
}

/// What stood in the way of a transaction.
///
/// ```
/// use lupaniele::desk::Why;
/// assert_eq!(Why::<&str, &str>::Unfinished.to_string(), "an earlier transaction is not written out: recover first");
/// ```
#[derive(Clone, Copy, Debug, PartialEq, Eq)]
pub enum Why<E, J> {
    /// The store, or the way to it, at this card.
    Store {
        /// The card.
        card: u16,
        /// What it said.
        failed: Failed<E>,
    },
    /// The log.
    Log(AppendError<J>),
    /// The log cannot be read.
    BadLog(Number),
    /// The store is of version 2, and logs are of version 1 (rule 15.13).
    Version,
    /// Something of an earlier transaction is due.
    Unfinished,
    /// What is to be written would be refused with this number once it is committed.
    Unwritable {
        /// The card.
        card: u16,
        /// The number.
        number: Number,
    },
}

/// What a recovery did.
///
/// ```
/// use lupaniele::desk::{Desk, Recovered};
/// use lupaniele::{DeskId, Image, Log, Version};
/// let mut store = Image::make(Version::One, 1, 16)?;
/// let recovered = Desk::start(DeskId::new(1, 0)).recover(&mut store, &mut Log::empty(4_096)?);
/// assert_eq!(recovered, Ok(Recovered { written: 0, synced: 0 }));
/// # Ok::<(), lupaniele::Number>(())
/// ```
#[derive(Clone, Copy, Debug, Default, PartialEq, Eq)]
pub struct Recovered {
    /// How many updates were written.
    pub written: u32,
    /// How many cards were noted as synced.
    pub synced: u32,
}

type Stopped<S, J> = Why<<S as Store>::Error, <J as Journal>::Error>;
type Halted<S, J> = Undone<<S as Store>::Error, <J as Journal>::Error>;

impl Desk {
    /// Begins a transaction.
    ///
    /// # Errors
    ///
    /// Where the log cannot take it, an earlier transaction is not written out (recover first), or the store is of version 2, for
    /// which there are no logs.
    ///
    /// ```
    /// use lupaniele::desk::Desk;
    /// use lupaniele::{DeskId, Image, Log, Version};
    /// let (mut store, mut log) = (Image::make(Version::One, 1, 16)?, Log::empty(4_096)?);
    /// let mut desk = Desk::start(DeskId::new(1, 0));
    /// let transaction = desk.transaction(&mut store, &mut log).unwrap();
    /// assert_eq!(transaction.number(), 1);
    /// # Ok::<(), lupaniele::Number>(())
    /// ```
    pub fn transaction<'a, S: Store, J: Journal>(
        &'a mut self,
        store: &'a mut S,
        journal: &'a mut J,
    ) -> Result<Transaction<'a, S, J>, Halted<S, J>> {
        if store.version() != Version::One {
            return Err(Undone::Aborted(Why::Version));
        }
        let log =
            Log::check(journal.log()).map_err(|number| Undone::Aborted(Why::BadLog(number)))?;
        if !log.nothing_due() {
            return Err(Undone::Aborted(Why::Unfinished));
        }
        let Some(number) = self.begun.max(log.last_begun()).checked_add(1) else {
            let full = AppendError::Refused(Number::LogFull);
            return Err(Undone::Aborted(Why::Log(full)));
        };
        let begun = journal.append(&Record::Begin(number));
        begun.map_err(|why| Undone::Aborted(Why::Log(why)))?;
        self.begun = number;
        Ok(Transaction {
            desk: self,
            store,
            journal,
            number,
            updates: Vec::new(),
            relied_on: Vec::new(),
        })
    }

    /// Finishes what stands in the log: each committed update that is due is written if its card still bears this
    /// desk's mark; where it does not, the card was finished before and may have been changed since, and is only noted
    /// as synced. Cards that a transaction marked which was given up are released.
    ///
    /// # Errors
    ///
    /// What stood in the way; it can be called again.
    ///
    /// ```
    /// use lupaniele::desk::{Desk, Recovered};
    /// use lupaniele::{DeskId, Image, Log, Mark, Record, Side, Version};
    /// # use lupaniele::{Command, Pair, Stamp};
    /// let mut store = Image::make(Version::One, 1, 16)?;
    /// let mut log = Log::empty(4_096)?;
    /// log.append(&Record::Begin(1))?;
    /// log.append(&Record::Update { card: 0, side: Side::Original, text: b"205" })?;
    /// # let prepare = Command::verify(0).exclusive(Pair::new(Stamp::NONE, Stamp::new(1, 1, 0)));
    /// # store.answer(&prepare.leaving(Mark::new(1, 1)), &mut [])?.accepted()?; // the card bears the mark
    /// log.append(&Record::Commit(1))?;
    /// // The desk goes down here, and starts again.
    /// let mut desk = Desk::start(DeskId::new(1, 1));
    /// assert_eq!(desk.recover(&mut store, &mut log), Ok(Recovered { written: 1, synced: 1 }));
    /// assert_eq!(desk.read_original(&mut store, 0).unwrap().text(), b"205");
    /// # Ok::<(), Box<dyn std::error::Error>>(())
    /// ```
    pub fn recover<S: Store, J: Journal>(
        &mut self,
        store: &mut S,
        journal: &mut J,
    ) -> Result<Recovered, Halted<S, J>> {
        if store.version() != Version::One {
            return Err(Undone::Committed(Why::Version));
        }
        let log =
            Log::check(journal.log()).map_err(|number| Undone::Committed(Why::BadLog(number)))?;
        self.begun = self.begun.max(log.last_begun());
        let (cards, tries) = (log.updated(), self.tries);
        let mut on = Outside {
            store,
            journal,
            mark: Mark::NONE,
            recovered: Recovered::default(),
        };
        for card in cards {
            let followed = self.follow(&mut on, card, false, tries);
            followed.map_err(Undone::Committed)?;
        }
        Ok(on.recovered)
    }

    /// Takes the steps of rule 16.25 for a card until nothing is left to do. What is stale, or meets another mark than it
    /// expects, is tried again by what the answer shows, so often as `tries` says.
    fn follow<S: Store, J: Journal>(
        &mut self,
        on: &mut Outside<'_, S, J>,
        card: u16,
        going: bool,
        tries: u32,
    ) -> Result<(), Stopped<S, J>> {
        let mut tried = 0;
        loop {
            let (desk, seen) = (self.id.desk, self.kept(card).seen);
            let log = Log::check(on.journal.log()).map_err(Why::BadLog)?;
            let step = NextStep::of(&log, desk, card, going, seen);
            let answer = match step {
                NextStep::Nothing | NextStep::Ready => return Ok(()),
                NextStep::Bad => return Err(Why::BadLog(Number::BadLog)),
                NextStep::Wait => {
                    let failed = Failed::Refused(Refusal::Marked(self.kept(card).mark));
                    return Err(Why::Store { card, failed });
                }
                NextStep::Note { transaction } => {
                    let note = Record::Synced { card, transaction };
                    on.journal.append(&note).map_err(Why::Log)?;
                    on.recovered.synced += 1;
                    continue;
                }
                NextStep::Look => self.look(on.store, card),
                NextStep::Prepare => self.order(step, on.store, card, on.mark, Action::Verify),
                NextStep::Release => self.order(step, on.store, card, on.mark, Action::Verify),
                NextStep::Write { line } => {
                    let action = self.writing(&log, card, line);
                    self.order(step, on.store, card, on.mark, action)
                }
            };
            let answer = answer.map_err(|failed| Why::Store { card, failed })?;
            // A look that shows the card has told what it was for, whatever its number.
            let looked = step == NextStep::Look && self.kept(card).seen != Seen::NOTHING;
            let refusal = match answer.number {
                Number::Accepted => {
                    on.recovered.written += u32::from(matches!(step, NextStep::Write { .. }));
                    tried = 0;
                    continue;
                }
                _ if looked => continue,
                Number::Stale | Number::MarkDiffers if tried + 1 < tries => {
                    tried += 1;
                    continue;
                }
                Number::Stale => Refusal::Stale { tries: tried + 1 },
                _ => Refusal::of(&answer),
            };
            let failed = Failed::Refused(refusal);
            return Err(Why::Store { card, failed });
        }
    }

    /// The write of a line of the log; a translation names the edition that stands.
    fn writing<'t, B: AsRef<[u8]>>(&mut self, log: &'t Log<B>, card: u16, line: u8) -> Action<'t> {
        match log.records().nth(line.into()) {
            Some(Record::Update {
                side: Side::Translation,
                text,
                ..
            }) => Action::WriteTranslation {
                language: Language::First,
                edition: self.kept(card).edition,
                text,
            },
            Some(Record::Update { text, .. }) => Action::WriteOriginal(text),
            _ => Action::Verify,
        }
    }

    /// A command without a mark of the desk's, for its answer.
    fn look<S: Store>(&mut self, store: &mut S, card: u16) -> Result<Answer, Failed<S::Error>> {
        let pair = self.kept(card).propose(Mode::Shared)?;
        let (answer, _) = self.send(store, &Command::verify(card).shared(pair))?;
        Ok(answer)
    }

    /// An order (rules 16.3 and 16.4): it opens a session of its own and relies on the pair that the guard last showed
    /// for the card, so that it is accepted at most once, and only while nobody else was.
    fn order<S: Store>(
        &mut self,
        step: NextStep,
        store: &mut S,
        card: u16,
        mark: Mark,
        action: Action,
    ) -> Result<Answer, Failed<S::Error>> {
        let kept = self.kept(card);
        let (relied_on, stored) = (kept.shown.unwrap_or_default(), kept.mark);
        let pair = kept.propose(Mode::Exclusive)?;
        let (expected, next) = match step {
            NextStep::Prepare => (Mark::NONE, mark),
            NextStep::Release => (stored, Mark::NONE),
            _ => (stored, stored),
        };
        let draft = Command::doing(card, action).opening(Mode::Exclusive, relied_on, pair);
        let command = draft.expecting(expected).leaving(next);
        let (answer, _) = self.send_as(step, store, &command)?;
        Ok(answer)
    }
}

/// What a desk works on outside itself, the mark that it prepares cards with, and what it has done.
struct Outside<'a, S, J> {
    store: &'a mut S,
    journal: &'a mut J,
    mark: Mark,
    recovered: Recovered,
}

impl<S: Store, J: Journal> Transaction<'_, S, J> {
    /// Its number.
    ///
    /// ```
    /// use lupaniele::desk::Desk;
    /// use lupaniele::{DeskId, Image, Log, Version};
    /// let (mut store, mut log) = (Image::make(Version::One, 1, 16)?, Log::empty(4_096)?);
    /// let mut desk = Desk::start(DeskId::new(1, 0));
    /// assert_eq!(desk.transaction(&mut store, &mut log).unwrap().number(), 1);
    /// assert_eq!(desk.transaction(&mut store, &mut log).unwrap().number(), 2);
    /// # Ok::<(), lupaniele::Number>(())
    /// ```
    #[must_use]
    pub fn number(&self) -> u32 {
        self.number
    }

    /// Reads an original on which the transaction relies: if it is changed by somebody else before the commit, nothing
    /// is.
    ///
    /// # Errors
    ///
    /// Why not; the transaction can still go on.
    ///
    /// ```
    /// use lupaniele::desk::Desk;
    /// use lupaniele::{DeskId, Image, Log, Version};
    /// let (mut store, mut log) = (Image::make(Version::One, 1, 16)?, Log::empty(4_096)?);
    /// let mut desk = Desk::start(DeskId::new(1, 0));
    /// let mut transaction = desk.transaction(&mut store, &mut log).unwrap();
    /// let original = transaction.read_original(0).unwrap();
    /// transaction.write_original(0, &original.text().repeat(2)).unwrap();
    /// assert_eq!(transaction.commit(), Ok(()));
    /// # Ok::<(), lupaniele::Number>(())
    /// ```
    pub fn read_original(&mut self, card: u16) -> Result<Original, Failed<S::Error>> {
        let original = self.desk.read_original(self.store, card)?;
        self.rely_on(card);
        Ok(original)
    }

    fn rely_on(&mut self, card: u16) {
        if !self.relied_on.contains(&card) {
            self.relied_on.push(card);
        }
    }

    /// It is to write an original.
    ///
    /// # Errors
    ///
    /// Where the log does not take it.
    ///
    /// ```
    /// use lupaniele::desk::Desk;
    /// use lupaniele::{DeskId, Image, Log, Version};
    /// let (mut store, mut log) = (Image::make(Version::One, 1, 16)?, Log::empty(4_096)?);
    /// let mut desk = Desk::start(DeskId::new(1, 0));
    /// let mut transaction = desk.transaction(&mut store, &mut log).unwrap();
    /// transaction.write_original(0, b"205").unwrap();
    /// assert_eq!(transaction.commit(), Ok(()));
    /// # Ok::<(), lupaniele::Number>(())
    /// ```
    pub fn write_original(&mut self, card: u16, text: &[u8]) -> Result<(), AppendError<J::Error>> {
        self.update(card, Side::Original, None, text)
    }

    /// It is to write the translation of an original that was read. If that is no longer the original when it commits,
    /// it is given up.
    ///
    /// # Errors
    ///
    /// Where the log does not take it.
    ///
    /// ```
    /// use lupaniele::desk::Desk;
    /// use lupaniele::{DeskId, Image, Log, Version};
    /// let (mut store, mut log) = (Image::make(Version::One, 1, 16)?, Log::empty(4_096)?);
    /// let mut desk = Desk::start(DeskId::new(1, 0));
    /// let original = desk.write_original(&mut store, 0, b"205").unwrap();
    /// let mut transaction = desk.transaction(&mut store, &mut log).unwrap();
    /// transaction.write_translation(&original, b"401").unwrap();
    /// assert_eq!(transaction.commit(), Ok(()));
    /// # Ok::<(), lupaniele::Number>(())
    /// ```
    pub fn write_translation(
        &mut self,
        original: &Original,
        text: &[u8],
    ) -> Result<(), AppendError<J::Error>> {
        let edition = Some(original.edition());
        self.update(original.card(), Side::Translation, edition, text)
    }

    /// It is to write an original and its translation.
    ///
    /// # Errors
    ///
    /// Where the log does not take them.
    ///
    /// ```
    /// use lupaniele::desk::Desk;
    /// use lupaniele::{DeskId, Image, Log, Version};
    /// let (mut store, mut log) = (Image::make(Version::One, 1, 16)?, Log::empty(4_096)?);
    /// let mut desk = Desk::start(DeskId::new(1, 0));
    /// let mut transaction = desk.transaction(&mut store, &mut log).unwrap();
    /// transaction.write_both(0, b"205", b"401").unwrap();
    /// assert_eq!(transaction.commit(), Ok(()));
    /// # Ok::<(), lupaniele::Number>(())
    /// ```
    pub fn write_both(
        &mut self,
        card: u16,
        original: &[u8],
        translation: &[u8],
    ) -> Result<(), AppendError<J::Error>> {
        self.update(card, Side::Original, None, original)?;
        self.update(card, Side::Translation, None, translation)
    }

    fn update(
        &mut self,
        card: u16,
        side: Side,
        edition: Option<u16>,
        text: &[u8],
    ) -> Result<(), AppendError<J::Error>> {
        self.journal.append(&Record::Update { card, side, text })?;
        let length = text.len();
        self.updates.push(Planned {
            card,
            side,
            edition,
            length,
        });
        Ok(())
    }

    /// The cards that it writes, each once.
    fn cards(&self) -> Vec<u16> {
        let mut cards = Vec::new();
        for Planned { card, .. } in &self.updates {
            if !cards.contains(card) {
                cards.push(*card);
            }
        }
        cards
    }

    /// Commits, and writes everything out.
    ///
    /// # Errors
    ///
    /// How it stands then: given up, committed and not all written out, or not known.
    ///
    /// ```
    /// use lupaniele::desk::{Desk, Undone, Why};
    /// use lupaniele::{DeskId, Image, Log, Number, Version};
    /// let mut store = Image::make(Version::One, 1, 16)?;
    /// let mut log = Log::empty(4_096)?;
    /// let mut desk = Desk::start(DeskId::new(1, 0));
    /// let mut transaction = desk.transaction(&mut store, &mut log).unwrap();
    /// transaction.write_original(0, b"more than sixteen bytes").unwrap();
    /// let unwritable = Why::Unwritable { card: 0, number: Number::PayloadLong };
    /// assert_eq!(transaction.commit(), Err(Undone::Aborted(unwritable)));
    /// # Ok::<(), Number>(())
    /// ```
    pub fn commit(mut self) -> Result<(), Halted<S, J>> {
        let cards = self.cards();
        if let Err(why) = self.prepare(&cards) {
            self.release(&cards);
            return Err(Undone::Aborted(why));
        }
        match self.journal.append(&Record::Commit(self.number)) {
            Ok(()) => {}
            Err(AppendError::Unknown(why)) => return Err(Undone::Unknown(why)),
            Err(why) => {
                self.release(&cards);
                return Err(Undone::Aborted(Why::Log(why)));
            }
        }
        for card in cards {
            self.follow(card, true, self.desk.tries)
                .map_err(Undone::Committed)?;
        }
        Ok(())
    }

    /// Takes the steps of a card, as the desk does.
    fn follow(&mut self, card: u16, going: bool, tries: u32) -> Result<(), Stopped<S, J>> {
        let mut on = Outside {
            store: &mut *self.store,
            journal: &mut *self.journal,
            mark: Mark::new(self.desk.id.desk, self.number),
            recovered: Recovered::default(),
        };
        self.desk.follow(&mut on, card, going, tries)
    }

    /// Makes each card ready (rule 16.8), and sees to it that what is committed can also be written and noted (16.21).
    fn prepare(&mut self, cards: &[u16]) -> Result<(), Stopped<S, J>> {
        for card in cards {
            let relied_on = self.relied_on.contains(card);
            if relied_on && self.desk.kept(*card).seen == Seen::NOTHING {
                let failed = Failed::Refused(Refusal::Stale { tries: 0 });
                return Err(Why::Store {
                    card: *card,
                    failed,
                });
            }
            self.follow(*card, true, if relied_on { 1 } else { self.desk.tries })?;
        }
        for card in cards {
            let writable = self.writable(*card);
            writable.map_err(|number| Why::Unwritable {
                card: *card,
                number,
            })?;
        }
        let log = Log::check(self.journal.log()).map_err(Why::BadLog)?;
        match log.has_room_to_finish(cards.len()) {
            true => Ok(()),
            false => Err(Why::Log(AppendError::Refused(Number::LogFull))),
        }
    }

    /// Whether what is to be written on a card will be accepted, by its edition, which nobody changes while it bears
    /// the mark, and the room.
    fn writable(&mut self, card: u16) -> Result<(), Number> {
        let mut edition = self.desk.kept(card).edition;
        for planned in self.updates.iter().filter(|planned| planned.card == card) {
            if planned.length > usize::from(self.store.room()) {
                return Err(Number::PayloadLong);
            }
            match planned.side {
                Side::Original => edition = edition.checked_add(1).ok_or(Number::EditionsSpent)?,
                Side::Translation
                    if edition == 0 || planned.edition.is_some_and(|from| from != edition) =>
                {
                    return Err(Number::EditionWrong);
                }
                Side::Translation => {}
            }
        }
        Ok(())
    }

    /// Takes the mark off cards again, as far as the store is reached; a recovery does the rest.
    fn release(&mut self, cards: &[u16]) {
        for card in cards {
            drop(self.follow(*card, false, self.desk.tries));
        }
    }
}

impl<E: fmt::Display, J: fmt::Display> fmt::Display for Undone<E, J> {
    fn fmt(&self, to: &mut fmt::Formatter) -> fmt::Result {
        match self {
            Undone::Aborted(why) => write!(to, "nothing was changed: {why}"),
            Undone::Unknown(why) => write!(
                to,
                "it may be committed or not, so read the log back: {why}"
            ),
            Undone::Committed(why) => {
                write!(to, "it is committed, and not all of it is written: {why}")
            }
        }
    }
}

impl<E: fmt::Display, J: fmt::Display> fmt::Display for Why<E, J> {
    fn fmt(&self, to: &mut fmt::Formatter) -> fmt::Result {
        match self {
            Why::Store { card, failed } => write!(to, "card {card}: {failed}"),
            Why::Log(why) => fmt::Display::fmt(why, to),
            Why::BadLog(number) => write!(to, "the log cannot be read: {number}"),
            Why::Version => to.write_str("logs are of version 1, and the store is of version 2"),
            Why::Unfinished => {
                to.write_str("an earlier transaction is not written out: recover first")
            }
            Why::Unwritable { card, number } => {
                write!(to, "card {card} could not be written: {number}")
            }
        }
    }
}

impl<E: fmt::Debug + fmt::Display, J: fmt::Debug + fmt::Display> std::error::Error
    for Undone<E, J>
{
}
