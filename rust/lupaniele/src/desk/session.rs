use std::marker::PhantomData;

use crate::{Action, Answer, Command, Language, Mode, Pair};

use super::{Desk, Failed, Refusal, Store};

/// The mode of a session, as a type.
///
/// ```
/// use lupaniele::Mode;
/// use lupaniele::desk::{Exclusive, InMode};
/// assert_eq!(Exclusive::MODE, Mode::Exclusive);
/// ```
pub trait InMode {
    /// The mode.
    const MODE: Mode;
}

/// Of a session in which cards are read.
///
/// ```
/// use lupaniele::desk::{InMode, Shared};
/// assert_eq!(Shared::MODE, lupaniele::Mode::Shared);
/// ```
#[derive(Clone, Copy, Debug)]
pub enum Shared {}

/// Of a session in which cards are also written.
///
/// ```
/// use lupaniele::desk::{Exclusive, InMode};
/// assert_eq!(Exclusive::MODE, lupaniele::Mode::Exclusive);
/// ```
#[derive(Clone, Copy, Debug)]
pub enum Exclusive {}

impl InMode for Shared {
    const MODE: Mode = Mode::Shared;
}

impl InMode for Exclusive {
    const MODE: Mode = Mode::Exclusive;
}

/// An original that a store gave or took: its card, its edition, its text. Only answers make one, so a translation
/// never names an edition that nobody read.
///
/// ```
/// use lupaniele::desk::Desk;
/// use lupaniele::{DeskId, Image, Version};
/// let mut store = Image::make(Version::One, 1, 16)?;
/// let original = Desk::start(DeskId::new(1, 0)).read_original(&mut store, 0).unwrap();
/// assert_eq!((original.card(), original.edition(), original.text()), (0, 0, &b""[..]));
/// # Ok::<(), lupaniele::Number>(())
/// ```
#[derive(Clone, Debug, PartialEq, Eq)]
pub struct Original {
    card: u16,
    edition: u16,
    text: Vec<u8>,
}

impl Original {
    /// The card that it is of.
    ///
    /// ```
    /// use lupaniele::desk::Desk;
    /// use lupaniele::{DeskId, Image, Version};
    /// let mut store = Image::make(Version::One, 1, 16)?;
    /// let mut desk = Desk::start(DeskId::new(1, 0));
    /// assert_eq!(desk.read_original(&mut store, 0).unwrap().card(), 0);
    /// # Ok::<(), lupaniele::Number>(())
    /// ```
    #[must_use]
    pub fn card(&self) -> u16 {
        self.card
    }

    /// Its edition.
    ///
    /// ```
    /// use lupaniele::desk::Desk;
    /// use lupaniele::{DeskId, Image, Version};
    /// let mut store = Image::make(Version::One, 1, 16)?;
    /// let mut desk = Desk::start(DeskId::new(1, 0));
    /// assert_eq!(desk.write_original(&mut store, 0, b"205").unwrap().edition(), 1);
    /// # Ok::<(), lupaniele::Number>(())
    /// ```
    #[must_use]
    pub fn edition(&self) -> u16 {
        self.edition
    }

    /// Its text.
    ///
    /// ```
    /// use lupaniele::desk::Desk;
    /// use lupaniele::{DeskId, Image, Version};
    /// let mut store = Image::make(Version::One, 1, 16)?;
    /// let mut desk = Desk::start(DeskId::new(1, 0));
    /// assert_eq!(desk.write_original(&mut store, 0, b"205").unwrap().text(), b"205");
    /// # Ok::<(), lupaniele::Number>(())
    /// ```
    #[must_use]
    pub fn text(&self) -> &[u8] {
        &self.text
    }
}

/// A session of a desk on one card. In a shared one all commands go under one pair, and between two that are accepted
/// nobody else's exclusive command is (rule 9.6). In an exclusive one each command relies on what the one before it
/// left, so that it is stale if anybody else's was accepted since; and each write goes under a new pair, so that it is
/// accepted once, however often the transport brings it. A session opens inside its first command (rule 3.4).
/// [`Desk::session`] makes one.
///
/// ```
/// use lupaniele::desk::{Desk, Session, Shared};
/// use lupaniele::{DeskId, Image, Language, Version};
/// let mut store = Image::make(Version::One, 1, 16)?;
/// let mut desk = Desk::start(DeskId::new(1, 0));
/// desk.write_original(&mut store, 0, b"205 C").unwrap();
/// // What was read still holds when it is written upon: else the work is done again.
/// desk.session(&mut store, 0, |mut session: Session<_, Shared>| {
///     let original = session.read_original()?;
///     let mut session = session.upgrade()?;
///     session.write_translation(&original, Language::First, b"401 F")
/// })
/// .unwrap();
/// # Ok::<(), lupaniele::Number>(())
/// ```
#[derive(Debug)]
pub struct Session<'a, S, M> {
    desk: &'a mut Desk,
    store: &'a mut S,
    card: u16,
    pair: Pair,
    /// The pair that its next command relies on, if that is another than its own: it opens its pair then.
    relied_on: Option<Pair>,
    mode: PhantomData<M>,
}

impl<'a, S: Store, M: InMode> Session<'a, S, M> {
    /// A session under the pair with which the desk stands in the card's queue, else under a new one.
    pub(super) fn open(
        desk: &'a mut Desk,
        store: &'a mut S,
        card: u16,
    ) -> Result<Session<'a, S, M>, Failed<S::Error>> {
        let kept = desk.kept(card);
        let (pair, relied_on) = match (kept.asked, M::MODE) {
            (Some((mode, pair)), _) if mode == M::MODE => (pair, None),
            (_, Mode::Shared) => (kept.propose(Mode::Shared)?, None),
            (_, Mode::Exclusive) => {
                let shown = kept.shown.unwrap_or_default();
                (kept.propose(Mode::Exclusive)?, Some(shown))
            }
        };
        Ok(Session {
            desk,
            store,
            card,
            pair,
            relied_on,
            mode: PhantomData,
        })
    }

    /// The pair that its next command goes under, if that is no write.
    ///
    /// ```
    /// use lupaniele::desk::{Desk, Exclusive, Session};
    /// use lupaniele::{DeskId, Image, Version};
    /// let mut store = Image::make(Version::One, 1, 16)?;
    /// let mut desk = Desk::start(DeskId::new(1, 0));
    /// let pair = desk.session(&mut store, 0, |session: Session<_, Exclusive>| Ok(session.pair())).unwrap();
    /// assert_eq!(pair.x.desk_id(), desk.id());
    /// # Ok::<(), lupaniele::Number>(())
    /// ```
    #[must_use]
    pub fn pair(&self) -> Pair {
        self.pair
    }

    fn send(&mut self, action: Action) -> Result<(Answer, Vec<u8>), Failed<S::Error>> {
        let draft = Command::doing(self.card, action);
        let command = match self.relied_on {
            Some(relied_on) => draft.opening(M::MODE, relied_on, self.pair),
            None => draft.under(M::MODE, self.pair),
        };
        let (answer, reply) = self.desk.send(self.store, &command)?;
        if !answer.is_accepted() {
            let refusal = Refusal::of(&answer);
            if let Refusal::Stale { .. } = refusal {
                self.desk.kept(self.card).asked = None;
            }
            return Err(Failed::Refused(refusal));
        }
        self.relied_on = None;
        Ok((answer, reply))
    }

    /// Makes sure that the session stands.
    ///
    /// # Errors
    ///
    /// Why not.
    ///
    /// ```
    /// use lupaniele::desk::{Desk, Session, Shared};
    /// use lupaniele::{DeskId, Image, Version};
    /// let mut store = Image::make(Version::One, 1, 16)?;
    /// let mut desk = Desk::start(DeskId::new(1, 0));
    /// let answer = desk.session(&mut store, 0, |mut session: Session<_, Shared>| session.verify());
    /// assert!(answer.unwrap().is_accepted());
    /// # Ok::<(), lupaniele::Number>(())
    /// ```
    pub fn verify(&mut self) -> Result<Answer, Failed<S::Error>> {
        self.send(Action::Verify).map(|(answer, _)| answer)
    }

    /// Reads the original.
    ///
    /// # Errors
    ///
    /// Why not.
    ///
    /// ```
    /// use lupaniele::desk::{Desk, Session, Shared};
    /// use lupaniele::{DeskId, Image, Version};
    /// let mut store = Image::make(Version::One, 1, 16)?;
    /// let mut desk = Desk::start(DeskId::new(1, 0));
    /// let read = desk.session(&mut store, 0, |mut session: Session<_, Shared>| session.read_original());
    /// assert_eq!(read.unwrap().text(), b"");
    /// # Ok::<(), lupaniele::Number>(())
    /// ```
    pub fn read_original(&mut self) -> Result<Original, Failed<S::Error>> {
        let (answer, text) = self.send(Action::ReadOriginal)?;
        Ok(Original {
            card: self.card,
            edition: answer.edition,
            text,
        })
    }

    /// Reads a translation.
    ///
    /// # Errors
    ///
    /// Why not.
    ///
    /// ```
    /// use lupaniele::desk::{Desk, Session, Shared};
    /// use lupaniele::{DeskId, Image, Language, Version};
    /// let mut store = Image::make(Version::One, 1, 16)?;
    /// let mut desk = Desk::start(DeskId::new(1, 0));
    /// let read = desk.session(&mut store, 0, |mut session: Session<_, Shared>| {
    ///     session.read_translation(Language::First)
    /// });
    /// assert!(read.is_err()); // there is none yet
    /// # Ok::<(), lupaniele::Number>(())
    /// ```
    pub fn read_translation(&mut self, language: Language) -> Result<Vec<u8>, Failed<S::Error>> {
        self.send(Action::ReadTranslation(language))
            .map(|(_, text)| text)
    }
}

impl<'a, S: Store> Session<'a, S, Shared> {
    /// An exclusive session, which opens inside its first command and relies there on this one: if somebody else came
    /// in between, that command is stale.
    ///
    /// # Errors
    ///
    /// Where the desk has no pair to propose.
    ///
    /// ```
    /// use lupaniele::desk::{Desk, Session, Shared};
    /// use lupaniele::{DeskId, Image, Version};
    /// let mut store = Image::make(Version::One, 1, 16)?;
    /// let mut desk = Desk::start(DeskId::new(1, 0));
    /// let written = desk.session(&mut store, 0, |mut session: Session<_, Shared>| {
    ///     let text = session.read_original()?.text().repeat(2);
    ///     session.upgrade()?.write_original(&text)
    /// });
    /// assert!(written.is_ok());
    /// # Ok::<(), lupaniele::Number>(())
    /// ```
    pub fn upgrade(self) -> Result<Session<'a, S, Exclusive>, Failed<S::Error>> {
        let kept = self.desk.kept(self.card);
        let pair = kept.propose(Mode::Exclusive)?;
        Ok(Session {
            relied_on: Some(self.pair),
            desk: self.desk,
            store: self.store,
            card: self.card,
            pair,
            mode: PhantomData,
        })
    }
}

impl<S: Store> Session<'_, S, Exclusive> {
    /// Sends a write: under a new pair, and it relies on the one before.
    fn write(&mut self, action: Action) -> Result<Answer, Failed<S::Error>> {
        if self.relied_on.is_none() {
            let pair = self.desk.kept(self.card).propose(Mode::Exclusive)?;
            self.relied_on = Some(self.pair);
            self.pair = pair;
        }
        self.send(action).map(|(answer, _)| answer)
    }

    /// Writes the original.
    ///
    /// # Errors
    ///
    /// Why not.
    ///
    /// ```
    /// use lupaniele::desk::{Desk, Exclusive, Session};
    /// use lupaniele::{DeskId, Image, Version};
    /// let mut store = Image::make(Version::One, 1, 16)?;
    /// let mut desk = Desk::start(DeskId::new(1, 0));
    /// let written = desk.session(&mut store, 0, |mut session: Session<_, Exclusive>| {
    ///     session.write_original(b"200")?;
    ///     session.write_original(b"205")
    /// });
    /// assert_eq!(written.unwrap().edition(), 2);
    /// # Ok::<(), lupaniele::Number>(())
    /// ```
    pub fn write_original(&mut self, text: &[u8]) -> Result<Original, Failed<S::Error>> {
        let answer = self.write(Action::WriteOriginal(text))?;
        Ok(Original {
            card: self.card,
            edition: answer.edition,
            text: text.to_vec(),
        })
    }

    /// Writes the translation of an original that was read or written.
    ///
    /// # Errors
    ///
    /// Why not.
    ///
    /// ```
    /// use lupaniele::desk::{Desk, Exclusive, Session};
    /// use lupaniele::{DeskId, Image, Language, Version};
    /// let mut store = Image::make(Version::One, 1, 16)?;
    /// let mut desk = Desk::start(DeskId::new(1, 0));
    /// let written = desk.session(&mut store, 0, |mut session: Session<_, Exclusive>| {
    ///     let original = session.write_original(b"205")?;
    ///     session.write_translation(&original, Language::First, b"401")
    /// });
    /// assert_eq!(written, Ok(()));
    /// # Ok::<(), lupaniele::Number>(())
    /// ```
    pub fn write_translation(
        &mut self,
        original: &Original,
        language: Language,
        text: &[u8],
    ) -> Result<(), Failed<S::Error>> {
        if original.card != self.card {
            return Err(Failed::OtherCard);
        }
        let action = Action::WriteTranslation {
            language,
            edition: original.edition,
            text,
        };
        self.write(action).map(|_| ())
    }
}
