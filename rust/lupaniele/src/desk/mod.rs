//! A desk that keeps the rules by itself: it knows and proposes (rules 10.1 to 10.9), sends under its own pairs, learns
//! from every answer, shows what may be shown (section 6), and changes several cards at once by its log.
//!
//! - [`Desk`]: reads and writes cards; [`Session`]: several commands that nobody else comes between.
//! - [`Store`], [`Locks`], [`Journal`]: what the caller brings: the way to the store, to the lock managers, and the
//!   desk's log.
//! - [`Transaction`]: several cards, all or nothing; [`NextStep`], [`Seen`]: its steps, for a desk of one's own.
//! - [`Failed`], [`Refusal`], [`NotShown`]: why not, as types.

mod kept;
mod refused;
mod session;
mod step;
mod transaction;

use std::collections::BTreeMap;
use std::convert::Infallible;

use crate::{
    Act, Answer, AppendError, Command, DeskId, Image, Language, Log, Mode, Number, Pair, Queue,
    QueueAnswer, Record, Version,
};

use kept::Kept;
pub use refused::{Failed, NotShown, Refusal};
pub use session::{Exclusive, InMode, Original, Session, Shared};
pub use step::{NextStep, Seen};
pub use transaction::{Recovered, Transaction, Undone, Why};

/// The most room that a text has in any image (rule 2.2): what a desk lends for a reply.
const LARGEST_ROOM: usize = 1_024;

/// How often a desk tries a thing that is stale, if it is not told otherwise.
const TRIES: u32 = 8;

/// The way to a store: the caller's transport. An [`Image`] is one, for a desk beside its store.
///
/// ```
/// use lupaniele::desk::{Desk, Store};
/// use lupaniele::{Answer, DeskId, Image, Version};
///
/// /// A store behind a line that is down every other time.
/// struct Shaky(Image, bool);
///
/// impl Store for Shaky {
///     type Error = &'static str;
///     fn version(&self) -> Version {
///         self.0.version()
///     }
///     fn room(&self) -> u16 {
///         self.0.room()
///     }
///     fn send(&mut self, command: &[u8], reply: &mut [u8]) -> Result<Answer, &'static str> {
///         self.1 = !self.1;
///         if self.1 { Ok(self.0.answer_bytes(command, reply)) } else { Err("the line is down") }
///     }
/// }
///
/// let mut store = Shaky(Image::make(Version::One, 1, 16)?, false);
/// let mut desk = Desk::start(DeskId::new(1, 0));
/// assert!(desk.write_original(&mut store, 0, b"205").is_ok());
/// assert!(desk.read_original(&mut store, 0).is_err());
/// assert_eq!(desk.read_original(&mut store, 0).map(|original| original.text().to_vec()), Ok(b"205".to_vec()));
/// # Ok::<(), lupaniele::Number>(())
/// ```
pub trait Store {
    /// What the transport says when it does not bring an answer. Whether the store got the command is then not known.
    type Error;

    /// The version of the store's image.
    fn version(&self) -> Version;

    /// The room of its texts, C.
    fn room(&self) -> u16;

    /// Takes a command to the store and brings its answer back; the text of an accepted read stands in front of `reply`
    /// then.
    ///
    /// # Errors
    ///
    /// Where no answer came back.
    fn send(&mut self, command: &[u8], reply: &mut [u8]) -> Result<Answer, Self::Error>;
}

impl<B: AsRef<[u8]> + AsMut<[u8]>> Store for Image<B> {
    type Error = Infallible;

    fn version(&self) -> Version {
        Image::version(self)
    }

    fn room(&self) -> u16 {
        Image::room(self)
    }

    fn send(&mut self, command: &[u8], reply: &mut [u8]) -> Result<Answer, Self::Error> {
        Ok(self.answer_bytes(command, reply))
    }
}

/// The way to the managers of the lock queues. A slice of queues is one, the queue of card k at k.
///
/// ```
/// use lupaniele::desk::Desk;
/// use lupaniele::{DeskId, Mode, Queue};
///
/// let mut queues = [Queue::new(4)?];
/// let (mut first, mut second) = (Desk::start(DeskId::new(1, 0)), Desk::start(DeskId::new(2, 0)));
/// assert!(first.ask(&mut queues[..], 0, Mode::Exclusive).is_ok_and(|answer| answer.holds));
/// assert!(second.ask(&mut queues[..], 0, Mode::Exclusive).is_ok_and(|answer| !answer.holds)); // it waits
/// assert!(first.leave(&mut queues[..], 0).is_ok());
/// # Ok::<(), lupaniele::Number>(())
/// ```
pub trait Locks {
    /// What the transport says when it does not bring an answer.
    type Error;

    /// A desk asks for the lock of a card, in a mode, with a pair.
    ///
    /// # Errors
    ///
    /// Where no answer came back.
    fn ask(&mut self, card: u16, mode: Mode, pair: Pair) -> Result<QueueAnswer, Self::Error>;

    /// A desk leaves the queue of a card.
    ///
    /// # Errors
    ///
    /// Where no answer came back.
    fn leave(&mut self, card: u16, desk: DeskId) -> Result<QueueAnswer, Self::Error>;
}

impl Locks for [Queue] {
    type Error = Number;

    fn ask(&mut self, card: u16, mode: Mode, pair: Pair) -> Result<QueueAnswer, Number> {
        let queue = self.get_mut(usize::from(card)).ok_or(Number::NoCard)?;
        Ok(queue.ask(mode, pair))
    }

    fn leave(&mut self, card: u16, desk: DeskId) -> Result<QueueAnswer, Number> {
        let queue = self.get_mut(usize::from(card)).ok_or(Number::NoCard)?;
        Ok(queue.leave(desk))
    }
}

/// A desk's log, wherever it is kept. A [`Log`] is one, in memory; [`LogFile`](crate::files::LogFile) is one that
/// survives a power cut.
///
/// ```
/// use lupaniele::desk::Journal;
/// use lupaniele::{Log, Record};
/// let mut log = Log::empty(4_096)?;
/// assert!(Journal::append(&mut log, &Record::Begin(1)).is_ok());
/// assert_eq!(log.count(), 1);
/// # Ok::<(), lupaniele::Number>(())
/// ```
pub trait Journal {
    /// What goes wrong with what keeps the log.
    type Error;

    /// The bytes of the log.
    fn log(&self) -> &[u8];

    /// Appends a record, and returns when it is kept.
    ///
    /// # Errors
    ///
    /// Where it was not appended, or where that is not known.
    fn append(&mut self, record: &Record) -> Result<(), AppendError<Self::Error>>;
}

impl<B: AsRef<[u8]> + AsMut<[u8]>> Journal for Log<B> {
    type Error = Infallible;

    fn log(&self) -> &[u8] {
        self.bytes()
    }

    fn append(&mut self, record: &Record) -> Result<(), AppendError<Infallible>> {
        Log::append(self, record).map_err(AppendError::Refused)
    }
}

/// A desk under one start: what it knows of each card, and what it holds of their texts.
///
/// ```
/// use lupaniele::desk::{Desk, Failed, Refusal};
/// use lupaniele::{DeskId, Image, Language, Version};
///
/// let mut store = Image::make(Version::One, 1, 16)?;
/// let (mut english, mut norwegian) = (Desk::start(DeskId::new(1, 0)), Desk::start(DeskId::new(2, 0)));
///
/// let original = english.write_original(&mut store, 0, b"200 C").unwrap();
/// english.write_original(&mut store, 0, b"205 C").unwrap();
///
/// // The translation of what is no longer there is refused, with the reason as a type.
/// let late = norwegian.write_translation(&mut store, &original, Language::First, b"392 F");
/// assert_eq!(late, Err(Failed::Refused(Refusal::Behind { edition: 2, translated_from: 0 })));
///
/// let original = norwegian.read_original(&mut store, 0).unwrap();
/// norwegian.write_translation(&mut store, &original, Language::First, b"401 F").unwrap();
/// assert_eq!(norwegian.shown_translation(0, Language::First), Ok(&b"401 F"[..]));
/// # Ok::<(), lupaniele::Number>(())
/// ```
#[derive(Clone, Debug)]
pub struct Desk {
    id: DeskId,
    cards: BTreeMap<u16, Kept>,
    tries: u32,
    /// The last transaction that it began.
    begun: u32,
}

impl Desk {
    /// A desk starts, and knows nothing. Its start is one that this desk never had before (rule 10.9), as
    /// [`files::next_start`](crate::files::next_start) gives them.
    ///
    /// ```
    /// use lupaniele::desk::Desk;
    /// use lupaniele::{DeskId, Pair};
    /// assert_eq!(Desk::start(DeskId::new(1, 0)).known(0), Pair::NONE);
    /// ```
    #[must_use]
    pub fn start(id: DeskId) -> Desk {
        Desk {
            id,
            cards: BTreeMap::new(),
            tries: TRIES,
            begun: 0,
        }
    }

    /// The same, and it tries a stale thing so often, once at the least.
    ///
    /// ```
    /// use lupaniele::desk::Desk;
    /// let patient = Desk::start(lupaniele::DeskId::new(1, 0)).trying(100);
    /// ```
    #[must_use]
    pub fn trying(self, tries: u32) -> Desk {
        Desk {
            tries: tries.max(1),
            ..self
        }
    }

    /// Who it is.
    ///
    /// ```
    /// use lupaniele::DeskId;
    /// use lupaniele::desk::Desk;
    /// assert_eq!(Desk::start(DeskId::new(1, 4)).id(), DeskId::new(1, 4));
    /// ```
    #[must_use]
    pub fn id(&self) -> DeskId {
        self.id
    }

    /// The largest pair that it has heard of for a card.
    ///
    /// ```
    /// use lupaniele::desk::Desk;
    /// use lupaniele::{DeskId, Pair};
    /// assert_eq!(Desk::start(DeskId::new(1, 0)).known(3), Pair::NONE);
    /// ```
    #[must_use]
    pub fn known(&self, card: u16) -> Pair {
        self.cards
            .get(&card)
            .map_or(Pair::NONE, |kept| kept.known.pair())
    }

    /// It learns a pair that was heard of for a card elsewhere (rule 10.1).
    ///
    /// ```
    /// use lupaniele::desk::Desk;
    /// use lupaniele::{DeskId, Pair, Stamp};
    /// let mut desk = Desk::start(DeskId::new(1, 0));
    /// let heard = Pair::new(Stamp::new(7, 2, 0), Stamp::NONE);
    /// desk.learn(0, heard);
    /// assert_eq!(desk.known(0), heard);
    /// ```
    pub fn learn(&mut self, card: u16, pair: Pair) {
        self.kept(card).known.learn(pair);
    }

    fn kept(&mut self, card: u16) -> &mut Kept {
        let id = self.id;
        self.cards.entry(card).or_insert_with(|| Kept::nothing(id))
    }

    /// Sends a command, and learns from its answer whatever it is. The text that was read stands in front of the
    /// returned bytes.
    fn send<S: Store>(
        &mut self,
        store: &mut S,
        command: &Command,
    ) -> Result<(Answer, Vec<u8>), Failed<S::Error>> {
        self.send_as(NextStep::Look, store, command)
    }

    /// The same of a step of a transaction. Until its answer comes nothing is seen of the card (rule 16.24).
    fn send_as<S: Store>(
        &mut self,
        step: NextStep,
        store: &mut S,
        command: &Command,
    ) -> Result<(Answer, Vec<u8>), Failed<S::Error>> {
        let bytes = command.to_bytes(store.version()).map_err(Failed::Command)?;
        let reading = matches!(
            command.action.act(),
            Act::ReadOriginal | Act::ReadTranslation
        );
        let mut reply = vec![0; if reading { LARGEST_ROOM } else { 0 }];
        self.kept(command.card).seen = Seen::NOTHING;
        let answer = store.send(&bytes, &mut reply).map_err(Failed::Transport)?;
        reply.truncate(answer.length.into());
        let kept = self.kept(command.card);
        kept.hear(command, &answer, &reply);
        kept.seen = Seen::heard(step, &answer);
        Ok((answer, reply))
    }

    /// Does some work in a session on a card, and does it again from its beginning, under a new pair, if the session
    /// was lost (number 3): so often as [`trying`](Desk::trying) says, and then it says so. What an earlier try wrote
    /// stands.
    ///
    /// # Errors
    ///
    /// What the work says, or why there is no session.
    ///
    /// ```
    /// use lupaniele::desk::{Desk, Exclusive, Session};
    /// use lupaniele::{DeskId, Image, Version};
    /// let mut store = Image::make(Version::One, 1, 16)?;
    /// let mut desk = Desk::start(DeskId::new(1, 0));
    /// desk.write_original(&mut store, 0, b"205").unwrap();
    /// // Read and write again, and nobody comes between.
    /// let raised = desk.session(&mut store, 0, |mut session: Session<_, Exclusive>| {
    ///     let original = session.read_original()?;
    ///     let text = [original.text(), b" C"].concat();
    ///     session.write_original(&text)
    /// });
    /// assert_eq!(raised.unwrap().text(), b"205 C");
    /// # Ok::<(), lupaniele::Number>(())
    /// ```
    pub fn session<S: Store, M: InMode, T>(
        &mut self,
        store: &mut S,
        card: u16,
        mut work: impl FnMut(Session<'_, S, M>) -> Result<T, Failed<S::Error>>,
    ) -> Result<T, Failed<S::Error>> {
        let mut tries = 0;
        loop {
            tries += 1;
            let session = Session::open(self, store, card)?;
            match work(session) {
                Err(Failed::Refused(Refusal::Stale { .. })) if tries < self.tries => {}
                Err(Failed::Refused(Refusal::Stale { .. })) => {
                    return Err(Failed::Refused(Refusal::Stale { tries }));
                }
                done => return done,
            }
        }
    }

    /// Reads the original of a card.
    ///
    /// # Errors
    ///
    /// Why not.
    ///
    /// ```
    /// use lupaniele::desk::Desk;
    /// use lupaniele::{DeskId, Image, Version};
    /// let mut store = Image::make(Version::One, 1, 16)?;
    /// let mut desk = Desk::start(DeskId::new(1, 0));
    /// assert_eq!(desk.read_original(&mut store, 0).unwrap().text(), b"");
    /// # Ok::<(), lupaniele::Number>(())
    /// ```
    pub fn read_original<S: Store>(
        &mut self,
        store: &mut S,
        card: u16,
    ) -> Result<Original, Failed<S::Error>> {
        self.session(store, card, |mut session: Session<S, Shared>| {
            session.read_original()
        })
    }

    /// Reads a translation of a card.
    ///
    /// # Errors
    ///
    /// Why not: [`Refusal::Behind`] where it is behind.
    ///
    /// ```
    /// use lupaniele::desk::{Desk, Failed, Refusal};
    /// use lupaniele::{DeskId, Image, Language, Version};
    /// let mut store = Image::make(Version::One, 1, 16)?;
    /// let mut desk = Desk::start(DeskId::new(1, 0));
    /// let behind = Refusal::Behind { edition: 0, translated_from: 0 };
    /// assert_eq!(desk.read_translation(&mut store, 0, Language::First), Err(Failed::Refused(behind)));
    /// # Ok::<(), lupaniele::Number>(())
    /// ```
    pub fn read_translation<S: Store>(
        &mut self,
        store: &mut S,
        card: u16,
        language: Language,
    ) -> Result<Vec<u8>, Failed<S::Error>> {
        self.session(store, card, |mut session: Session<S, Shared>| {
            session.read_translation(language)
        })
    }

    /// Writes the original of a card, whatever stands there.
    ///
    /// # Errors
    ///
    /// Why not.
    ///
    /// ```
    /// use lupaniele::desk::Desk;
    /// use lupaniele::{DeskId, Image, Version};
    /// let mut store = Image::make(Version::One, 1, 16)?;
    /// let mut desk = Desk::start(DeskId::new(1, 0));
    /// assert_eq!(desk.write_original(&mut store, 0, b"205").unwrap().edition(), 1);
    /// # Ok::<(), lupaniele::Number>(())
    /// ```
    pub fn write_original<S: Store>(
        &mut self,
        store: &mut S,
        card: u16,
        text: &[u8],
    ) -> Result<Original, Failed<S::Error>> {
        self.session(store, card, |mut session: Session<S, Exclusive>| {
            session.write_original(text)
        })
    }

    /// Writes the translation of an original that was read or written.
    ///
    /// # Errors
    ///
    /// Why not: [`Refusal::Behind`] where the original is no longer that one. It is then to be read and translated
    /// again, so this is not tried again.
    ///
    /// ```
    /// use lupaniele::desk::Desk;
    /// use lupaniele::{DeskId, Image, Language, Version};
    /// let mut store = Image::make(Version::One, 1, 16)?;
    /// let mut desk = Desk::start(DeskId::new(1, 0));
    /// let original = desk.write_original(&mut store, 0, b"205").unwrap();
    /// assert_eq!(desk.write_translation(&mut store, &original, Language::First, b"401"), Ok(()));
    /// # Ok::<(), lupaniele::Number>(())
    /// ```
    pub fn write_translation<S: Store>(
        &mut self,
        store: &mut S,
        original: &Original,
        language: Language,
        text: &[u8],
    ) -> Result<(), Failed<S::Error>> {
        self.session(
            store,
            original.card(),
            |mut session: Session<S, Exclusive>| {
                session.write_translation(original, language, text)
            },
        )
    }

    /// Asks for the lock of a card. What is denied is asked for again with what was learnt (rule 10.10). Sessions in
    /// that mode then go under the pair that was accepted, until one of them is lost.
    ///
    /// # Errors
    ///
    /// Where no answer came back, or the desk has no pair to propose. Any number of the queue is an answer.
    ///
    /// ```
    /// use lupaniele::desk::Desk;
    /// use lupaniele::{DeskId, Mode, Queue};
    /// let (mut queues, mut desk) = ([Queue::new(4)?], Desk::start(DeskId::new(1, 0)));
    /// assert!(desk.ask(&mut queues[..], 0, Mode::Shared).is_ok_and(|answer| answer.holds));
    /// # Ok::<(), lupaniele::Number>(())
    /// ```
    pub fn ask<L: Locks + ?Sized>(
        &mut self,
        locks: &mut L,
        card: u16,
        mode: Mode,
    ) -> Result<QueueAnswer, Failed<L::Error>> {
        let mut tries = 0;
        loop {
            tries += 1;
            let kept = self.kept(card);
            let pair = kept.propose(mode)?;
            let answer = locks.ask(card, mode, pair).map_err(Failed::Transport)?;
            kept.known.learn(answer.largest);
            if answer.is_accepted() {
                kept.asked = Some((mode, pair));
            }
            if answer.number != Number::PairDenied || tries >= self.tries {
                return Ok(answer);
            }
        }
    }

    /// Leaves the queue of a card.
    ///
    /// # Errors
    ///
    /// Where no answer came back.
    ///
    /// ```
    /// use lupaniele::desk::Desk;
    /// use lupaniele::{DeskId, Number, Queue};
    /// let (mut queues, mut desk) = ([Queue::new(4)?], Desk::start(DeskId::new(1, 0)));
    /// let answer = desk.leave(&mut queues[..], 0).unwrap();
    /// assert_eq!(answer.number, Number::NotStanding);
    /// # Ok::<(), Number>(())
    /// ```
    pub fn leave<L: Locks + ?Sized>(
        &mut self,
        locks: &mut L,
        card: u16,
    ) -> Result<QueueAnswer, Failed<L::Error>> {
        let answer = locks.leave(card, self.id).map_err(Failed::Transport)?;
        let kept = self.kept(card);
        kept.known.learn(answer.largest);
        kept.asked = None;
        Ok(answer)
    }

    /// The original of a card as it was last read or written here, for showing.
    ///
    /// # Errors
    ///
    /// [`NotShown::NotRead`] where it was not, or was changed since by what the desk has heard.
    ///
    /// ```
    /// use lupaniele::desk::{Desk, NotShown};
    /// let desk = Desk::start(lupaniele::DeskId::new(1, 0));
    /// assert_eq!(desk.shown_original(0), Err(NotShown::NotRead));
    /// ```
    pub fn shown_original(&self, card: u16) -> Result<&[u8], NotShown> {
        self.cards
            .get(&card)
            .ok_or(NotShown::NotRead)?
            .shown_original()
    }

    /// A translation of a card as it was last read or written here, for showing (rule 6.2).
    ///
    /// # Errors
    ///
    /// [`NotShown::NotRead`] where it was not; [`NotShown::Refused`] where it is behind by what the desk has heard.
    ///
    /// ```
    /// use lupaniele::desk::{Desk, NotShown};
    /// use lupaniele::{DeskId, Image, Language, Number, Version};
    /// let mut store = Image::make(Version::One, 1, 16)?;
    /// let mut desk = Desk::start(DeskId::new(1, 0));
    /// let original = desk.write_original(&mut store, 0, b"200 C").unwrap();
    /// desk.write_translation(&mut store, &original, Language::First, b"392 F").unwrap();
    /// desk.write_original(&mut store, 0, b"205 C").unwrap();
    /// assert_eq!(desk.shown_translation(0, Language::First), Err(NotShown::Refused(Number::EditionWrong)));
    /// # Ok::<(), Number>(())
    /// ```
    pub fn shown_translation(&self, card: u16, language: Language) -> Result<&[u8], NotShown> {
        let kept = self.cards.get(&card).ok_or(NotShown::NotRead)?;
        kept.shown_translation(language)
    }
}
