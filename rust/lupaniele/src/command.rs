use std::fmt;

use crate::bytes::{slice_at, u8_at, u16_at, u32_at, u64_at};
use crate::{Act, DeskId, Language, Mark, Mode, Pair, Version};

/// What a command does, with what it needs for it (rule 3.2).
///
/// ```
/// use lupaniele::{Act, Action};
/// assert_eq!(Action::WriteOriginal(b"205").act(), Act::WriteOriginal);
/// ```
#[derive(Clone, Copy, Debug, PartialEq, Eq, Hash)]
pub enum Action<'a> {
    /// Reads the original.
    ReadOriginal,
    /// Reads the translation in a language.
    ReadTranslation(Language),
    /// Writes the original.
    WriteOriginal(&'a [u8]),
    /// Writes the translation in a language, made from an edition of the original.
    WriteTranslation {
        /// The language.
        language: Language,
        /// The edition that the text was made from.
        edition: u16,
        /// The text.
        text: &'a [u8],
    },
    /// Carries its stamps and does nothing else.
    Verify,
}

impl<'a> Action<'a> {
    /// Its act.
    ///
    /// ```
    /// use lupaniele::{Act, Action};
    /// assert_eq!(Action::Verify.act(), Act::Verify);
    /// ```
    #[must_use]
    pub const fn act(self) -> Act {
        match self {
            Action::ReadOriginal => Act::ReadOriginal,
            Action::ReadTranslation(_) => Act::ReadTranslation,
            Action::WriteOriginal(_) => Act::WriteOriginal,
            Action::WriteTranslation { .. } => Act::WriteTranslation,
            Action::Verify => Act::Verify,
        }
    }

    /// The language that it names; the first where it names none.
    const fn language(self) -> Language {
        match self {
            Action::ReadTranslation(language) | Action::WriteTranslation { language, .. } => {
                language
            }
            _ => Language::First,
        }
    }

    const fn edition(self) -> u16 {
        match self {
            Action::WriteTranslation { edition, .. } => edition,
            _ => 0,
        }
    }

    /// The text that it writes; none for the others.
    const fn text(self) -> &'a [u8] {
        match self {
            Action::WriteOriginal(text) | Action::WriteTranslation { text, .. } => text,
            _ => &[],
        }
    }
}

/// What is to be done on which card: a command once it is said under what, by [`shared`](Draft::shared),
/// [`exclusive`](Draft::exclusive) or [`opening`](Draft::opening).
///
/// ```
/// use lupaniele::{Command, Mode, Pair, Stamp};
/// let pair = Pair::new(Stamp::new(1, 1, 0), Stamp::NONE);
/// let command = Command::read_original(0).shared(pair);
/// assert_eq!(command.mode, Mode::Shared);
/// ```
#[derive(Clone, Copy, Debug, PartialEq, Eq)]
#[must_use = "a command says under which pair it is sent"]
pub struct Draft<'a> {
    card: u16,
    action: Action<'a>,
}

impl<'a> Draft<'a> {
    /// A shared command under this pair.
    ///
    /// ```
    /// use lupaniele::{Command, Mode, Pair, Stamp};
    /// let pair = Pair::new(Stamp::new(1, 1, 0), Stamp::new(1, 1, 0));
    /// assert_eq!(Command::read_original(0).shared(pair).mode, Mode::Shared);
    /// ```
    #[must_use]
    pub fn shared(self, pair: Pair) -> Command<'a> {
        self.under(Mode::Shared, pair)
    }

    /// An exclusive command under this pair.
    ///
    /// ```
    /// use lupaniele::{Command, Mode, Pair, Stamp};
    /// let pair = Pair::new(Stamp::new(1, 1, 0), Stamp::new(1, 1, 0));
    /// assert_eq!(Command::verify(0).exclusive(pair).mode, Mode::Exclusive);
    /// ```
    #[must_use]
    pub fn exclusive(self, pair: Pair) -> Command<'a> {
        self.under(Mode::Exclusive, pair)
    }

    /// A command in this mode under this pair, on which it relies and by which it raises what is stored.
    ///
    /// ```
    /// use lupaniele::{Command, Mode, Pair, Stamp};
    /// let pair = Pair::new(Stamp::new(1, 1, 0), Stamp::new(1, 1, 0));
    /// assert_eq!(Command::verify(0).under(Mode::Shared, pair).verifier, pair);
    /// ```
    #[must_use]
    pub fn under(self, mode: Mode, pair: Pair) -> Command<'a> {
        Command {
            card: self.card,
            action: self.action,
            mode,
            verifier: pair,
            update: None,
            expected: Mark::NONE,
            next: Mark::NONE,
        }
    }

    /// A command that opens a session (rule 3.4): it relies on one pair, the verifier, and raises what is stored by
    /// another.
    ///
    /// ```
    /// use lupaniele::{Command, Mode, Pair, Stamp};
    /// let relied_on = Pair::new(Stamp::NONE, Stamp::new(1, 1, 0));
    /// let new = Pair::new(Stamp::new(2, 2, 0), Stamp::new(1, 1, 0));
    /// let command = Command::verify(0).opening(Mode::Shared, relied_on, new);
    /// assert_eq!(command.update_pair(), new);
    /// ```
    #[must_use]
    pub fn opening(self, mode: Mode, verifier: Pair, update: Pair) -> Command<'a> {
        Command {
            update: Some(update),
            ..self.under(mode, verifier)
        }
    }
}

/// A command to the store, before it is bytes (rules 3.1 to 3.4, 15.6). Whether it is well formed is for the store to
/// say.
///
/// ```
/// use lupaniele::{Command, Mark, Pair, Stamp, Version};
///
/// let stamp = Stamp::new(1, 1, 0);
/// let command = Command::write_original(0, b"205")
///     .exclusive(Pair::new(stamp, stamp))
///     .expecting(Mark::NONE)
///     .leaving(Mark::new(1, 7));
/// let bytes = command.to_bytes(Version::One)?;
/// assert_eq!(bytes.len(), 55);
/// assert_eq!(Command::parse(Version::One, &bytes), Ok(command));
/// # Ok::<(), lupaniele::BuildError>(())
/// ```
#[derive(Clone, Copy, Debug, PartialEq, Eq, Hash)]
pub struct Command<'a> {
    /// The card, from 0.
    pub card: u16,
    /// What it does.
    pub action: Action<'a>,
    /// The mode.
    pub mode: Mode,
    /// The pair that it relies on.
    pub verifier: Pair,
    /// The pair by which it raises what is stored, if that is another; a pair of zeros is none.
    pub update: Option<Pair>,
    /// The commit mark that it expects.
    pub expected: Mark,
    /// The commit mark that it leaves.
    pub next: Mark,
}

impl<'a> Command<'a> {
    /// Reads the original of a card.
    ///
    /// ```
    /// use lupaniele::{Action, Command, Pair};
    /// assert_eq!(Command::read_original(3).shared(Pair::NONE).action, Action::ReadOriginal);
    /// ```
    pub fn read_original(card: u16) -> Draft<'a> {
        Command::doing(card, Action::ReadOriginal)
    }

    /// Reads a translation of a card.
    ///
    /// ```
    /// use lupaniele::{Action, Command, Language, Pair};
    /// let command = Command::read_translation(3, Language::Third).shared(Pair::NONE);
    /// assert_eq!(command.action, Action::ReadTranslation(Language::Third));
    /// ```
    pub fn read_translation(card: u16, language: Language) -> Draft<'a> {
        Command::doing(card, Action::ReadTranslation(language))
    }

    /// Writes the original of a card.
    ///
    /// ```
    /// use lupaniele::{Action, Command, Pair};
    /// let command = Command::write_original(3, b"205").exclusive(Pair::NONE);
    /// assert_eq!(command.action, Action::WriteOriginal(b"205"));
    /// ```
    pub fn write_original(card: u16, text: &'a [u8]) -> Draft<'a> {
        Command::doing(card, Action::WriteOriginal(text))
    }

    /// Writes a translation of a card, made from an edition of its original.
    ///
    /// ```
    /// use lupaniele::{Command, Language, Pair, Stamp, Version};
    /// let stamp = Stamp::new(1, 1, 0);
    /// let command = Command::write_translation(0, Language::Second, 2, b"402").exclusive(Pair::new(stamp, stamp));
    /// assert!(command.to_bytes(Version::One).is_err()); // version 1 has one language
    /// assert_eq!(command.to_bytes(Version::Two)?.len(), 71);
    /// # Ok::<(), lupaniele::BuildError>(())
    /// ```
    pub fn write_translation(
        card: u16,
        language: Language,
        edition: u16,
        text: &'a [u8],
    ) -> Draft<'a> {
        let action = Action::WriteTranslation {
            language,
            edition,
            text,
        };
        Command::doing(card, action)
    }

    /// Carries stamps to a card and does nothing else.
    ///
    /// ```
    /// use lupaniele::{Action, Command, Pair};
    /// assert_eq!(Command::verify(3).shared(Pair::NONE).action, Action::Verify);
    /// ```
    pub fn verify(card: u16) -> Draft<'a> {
        Command::doing(card, Action::Verify)
    }

    /// Does this on that card.
    ///
    /// ```
    /// use lupaniele::{Action, Command};
    /// assert_eq!(Command::doing(3, Action::Verify), Command::verify(3));
    /// ```
    pub fn doing(card: u16, action: Action<'a>) -> Draft<'a> {
        Draft { card, action }
    }

    /// The same, and it expects this commit mark.
    ///
    /// ```
    /// use lupaniele::{Command, Mark, Pair};
    /// let command = Command::verify(0).exclusive(Pair::NONE).expecting(Mark::new(5, 7));
    /// assert_eq!((command.expected, command.next), (Mark::new(5, 7), Mark::NONE));
    /// ```
    #[must_use]
    pub fn expecting(self, mark: Mark) -> Command<'a> {
        Command {
            expected: mark,
            ..self
        }
    }

    /// The same, and it leaves this commit mark.
    ///
    /// ```
    /// use lupaniele::{Command, Mark, Pair};
    /// let command = Command::verify(0).exclusive(Pair::NONE).leaving(Mark::new(5, 7));
    /// assert_eq!((command.expected, command.next), (Mark::NONE, Mark::new(5, 7)));
    /// ```
    #[must_use]
    pub fn leaving(self, mark: Mark) -> Command<'a> {
        Command { next: mark, ..self }
    }

    /// The pair by which it raises what is stored: the verifier where no other is given (rule 3.4).
    ///
    /// ```
    /// use lupaniele::{Command, Pair, Stamp};
    /// let pair = Pair::new(Stamp::new(1, 1, 0), Stamp::new(1, 1, 0));
    /// assert_eq!(Command::verify(0).shared(pair).update_pair(), pair);
    /// ```
    #[must_use]
    pub fn update_pair(&self) -> Pair {
        match self.update {
            Some(update) if update != Pair::NONE => update,
            _ => self.verifier,
        }
    }

    /// The desk and start that it is of: that of its mode's own stamp in its update pair (rule 1.5).
    ///
    /// ```
    /// use lupaniele::{Command, DeskId, Pair, Stamp};
    /// let pair = Pair::new(Stamp::new(2, 2, 5), Stamp::new(1, 1, 0));
    /// assert_eq!(Command::verify(0).shared(pair).desk_id(), DeskId::new(2, 5));
    /// ```
    #[must_use]
    pub fn desk_id(&self) -> DeskId {
        self.update_pair().own(self.mode).desk_id()
    }

    /// How many bytes it takes.
    ///
    /// ```
    /// use lupaniele::{Command, Pair, Version};
    /// let command = Command::write_original(0, b"205").exclusive(Pair::NONE);
    /// assert_eq!((command.length(Version::One), command.length(Version::Two)), (55, 71));
    /// ```
    #[must_use]
    pub fn length(&self, version: Version) -> usize {
        version.command_bytes() + self.action.text().len()
    }

    /// Its bytes.
    ///
    /// # Errors
    ///
    /// Where the bytes of that version cannot say it: a text of more than 65,535 bytes, or a language that version 1
    /// does not have.
    ///
    /// ```
    /// use lupaniele::{BuildError, Command, Pair, Version};
    /// let text = vec![b'a'; 65_536];
    /// let command = Command::write_original(0, &text).exclusive(Pair::NONE);
    /// assert_eq!(command.to_bytes(Version::One), Err(BuildError::TextTooLong { length: 65_536 }));
    /// ```
    pub fn to_bytes(&self, version: Version) -> Result<Vec<u8>, BuildError> {
        let mut bytes = Vec::with_capacity(self.length(version));
        self.append_to(version, &mut bytes)?;
        Ok(bytes)
    }

    /// Puts its bytes behind others, as in a stream.
    ///
    /// # Errors
    ///
    /// As [`to_bytes`](Command::to_bytes); nothing is put there then.
    ///
    /// ```
    /// use lupaniele::{Command, Pair, Stamp, Version};
    /// let command = Command::verify(0).shared(Pair::new(Stamp::new(1, 1, 0), Stamp::NONE));
    /// let mut stream = Vec::new();
    /// command.append_to(Version::One, &mut stream)?;
    /// command.append_to(Version::One, &mut stream)?;
    /// assert_eq!(stream.len(), 2 * command.length(Version::One));
    /// # Ok::<(), lupaniele::BuildError>(())
    /// ```
    pub fn append_to(&self, version: Version, bytes: &mut Vec<u8>) -> Result<(), BuildError> {
        let (text, language) = (self.action.text(), self.action.language());
        let Ok(length) = u16::try_from(text.len()) else {
            return Err(BuildError::TextTooLong { length: text.len() });
        };
        if !version.languages().contains(&language) {
            return Err(BuildError::NoSuchLanguage { language, version });
        }
        let update = self.update.unwrap_or_default().numbers();
        let (middle, last) = match version {
            Version::One => (update, &[][..]),
            Version::Two => ([language.number().into(), 0], &update[..]),
        };
        let words = |bytes: &mut Vec<u8>, words: &[u64]| {
            words
                .iter()
                .for_each(|word| bytes.extend(word.to_le_bytes()));
        };
        bytes.extend([self.action.act().number(), self.mode.number()]);
        bytes.extend(self.card.to_le_bytes());
        words(bytes, &self.verifier.numbers());
        words(bytes, &middle);
        for mark in [self.expected, self.next] {
            bytes.extend(mark.desk.to_le_bytes());
            bytes.extend(mark.transaction.to_le_bytes());
        }
        bytes.extend(self.action.edition().to_le_bytes());
        bytes.extend(length.to_le_bytes());
        words(bytes, last);
        bytes.extend(text);
        Ok(())
    }

    /// The command in some bytes. What this reads is what [`to_bytes`](Command::to_bytes) writes, no more and no less;
    /// the store may still find it malformed, for its stamps or its marks.
    ///
    /// # Errors
    ///
    /// Where the bytes say something that no `Command` does.
    ///
    /// ```
    /// use lupaniele::{Command, ParseError, Version};
    /// assert_eq!(Command::parse(Version::One, &[0; 51]), Err(ParseError::Length));
    /// assert_eq!(Command::parse(Version::One, &[0; 52]), Err(ParseError::Act(0)));
    /// ```
    pub fn parse(version: Version, bytes: &'a [u8]) -> Result<Command<'a>, ParseError> {
        let fixed = version.command_bytes();
        let length = usize::from(u16_at(bytes, 50));
        if bytes.len() != fixed + length {
            return Err(ParseError::Length);
        }
        let (act, mode) = (u8_at(bytes, 0), u8_at(bytes, 1));
        let act = Act::from_number(act).ok_or(ParseError::Act(act))?;
        let mode = Mode::from_number(mode).ok_or(ParseError::Mode(mode))?;
        let update = match version {
            Version::One => pair_at(bytes, 20),
            Version::Two => pair_at(bytes, 52),
        };
        Ok(Command {
            card: u16_at(bytes, 2),
            action: parse_action(version, act, bytes)?,
            mode,
            verifier: pair_at(bytes, 4),
            update: (update != Pair::NONE).then_some(update),
            expected: Mark::new(u16_at(bytes, 36), u32_at(bytes, 38)),
            next: Mark::new(u16_at(bytes, 42), u32_at(bytes, 44)),
        })
    }
}

fn pair_at(bytes: &[u8], at: usize) -> Pair {
    Pair::of([u64_at(bytes, at), u64_at(bytes, at + 8)])
}

/// What an act does by the other fields, where these say nothing that the act does not have.
fn parse_action(version: Version, act: Act, bytes: &[u8]) -> Result<Action<'_>, ParseError> {
    let language = match version {
        Version::One => Language::First,
        Version::Two => {
            let number = u8_at(bytes, 20);
            Language::from_number(number).ok_or(ParseError::Language(number))?
        }
    };
    if version == Version::Two && slice_at(bytes, 21, 15).iter().any(|byte| *byte != 0) {
        return Err(ParseError::NotZero);
    }
    let (edition, text) = (u16_at(bytes, 48), &bytes[version.command_bytes()..]);
    let action = match act {
        Act::ReadOriginal => Action::ReadOriginal,
        Act::ReadTranslation => Action::ReadTranslation(language),
        Act::WriteOriginal => Action::WriteOriginal(text),
        Act::WriteTranslation => Action::WriteTranslation {
            language,
            edition,
            text,
        },
        Act::Verify => Action::Verify,
    };
    let said = (action.language(), action.edition(), action.text());
    if said != (language, edition, text) {
        return Err(ParseError::NotZero);
    }
    Ok(action)
}

/// Why a command has no bytes in a version.
///
/// ```
/// let why = lupaniele::BuildError::TextTooLong { length: 65_536 };
/// assert_eq!(why.to_string(), "a text of 65536 bytes: a command carries at most 65535");
/// ```
#[derive(Clone, Copy, Debug, PartialEq, Eq)]
pub enum BuildError {
    /// The text is longer than a command can carry.
    TextTooLong {
        /// How long it is.
        length: usize,
    },
    /// That version has no such language.
    NoSuchLanguage {
        /// The language.
        language: Language,
        /// The version.
        version: Version,
    },
}

impl fmt::Display for BuildError {
    fn fmt(&self, to: &mut fmt::Formatter) -> fmt::Result {
        match self {
            BuildError::TextTooLong { length } => {
                let most = u16::MAX;
                write!(
                    to,
                    "a text of {length} bytes: a command carries at most {most}"
                )
            }
            BuildError::NoSuchLanguage { language, version } => {
                write!(to, "{version} has no {language}")
            }
        }
    }
}

impl std::error::Error for BuildError {}

/// Why some bytes are no [`Command`].
///
/// ```
/// assert_eq!(lupaniele::ParseError::Mode(3).to_string(), "no mode has the number 3");
/// ```
#[derive(Clone, Copy, Debug, PartialEq, Eq)]
pub enum ParseError {
    /// They are not as many as the command's own length says.
    Length,
    /// No act has this number.
    Act(u8),
    /// No mode has this number.
    Mode(u8),
    /// No language has this number.
    Language(u8),
    /// A field that this act does not have is not zero.
    NotZero,
}

impl fmt::Display for ParseError {
    fn fmt(&self, to: &mut fmt::Formatter) -> fmt::Result {
        match self {
            ParseError::Length => to.write_str("the bytes are not as many as the command says"),
            ParseError::Act(number) => write!(to, "no act has the number {number}"),
            ParseError::Mode(number) => write!(to, "no mode has the number {number}"),
            ParseError::Language(number) => write!(to, "no language has the number {number}"),
            ParseError::NotZero => to.write_str("a field that this act does not have is not zero"),
        }
    }
}

impl std::error::Error for ParseError {}
