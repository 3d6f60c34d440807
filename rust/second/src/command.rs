//! A command: its bytes in each version, its fields, and when it is well formed
//! (rules 3.1 to 3.4).

use crate::endian::{put, u16_at, u32_at, u64_at};
use crate::format::Format;
use crate::language::Language;
use crate::stamp::{Mark, Mode, Pair, Session};

/// Where a command holds the length of its payload, in either version.
pub const LENGTH_OFFSET: usize = 50;

/// What a command does.
#[derive(Clone, Copy, Debug, PartialEq, Eq, Hash)]
pub enum Act {
    /// Act 1, read original, and act 2, read translation.
    Read(Language),
    /// Act 3, write original, and act 4, write translation.
    Write(Language),
    /// Act 5.
    Verify,
}

impl Act {
    /// The act with this number, and with this language where it is about a
    /// translation; every other act has language 0.
    pub fn from_numbers(format: Format, number: u8, language: u8) -> Option<Act> {
        let exists = usize::from(language) < format.translations();
        match (number, language) {
            (1, 0) => Some(Act::Read(Language::Original)),
            (2, _) if exists => Some(Act::Read(Language::Translation(language))),
            (3, 0) => Some(Act::Write(Language::Original)),
            (4, _) if exists => Some(Act::Write(Language::Translation(language))),
            (5, 0) => Some(Act::Verify),
            _ => None,
        }
    }

    /// The number of this act.
    pub fn number(self) -> u8 {
        match self {
            Act::Read(Language::Original) => 1,
            Act::Read(Language::Translation(_)) => 2,
            Act::Write(Language::Original) => 3,
            Act::Write(Language::Translation(_)) => 4,
            Act::Verify => 5,
        }
    }
}

/// The fields of a command as its bytes hold them; any values at all.
#[derive(Clone, Copy, Debug, Default, PartialEq, Eq, Hash)]
pub struct CommandFields {
    /// The version whose bytes they are.
    pub format: Format,
    /// Offset 0.
    pub act: u8,
    /// Offset 1.
    pub mode: u8,
    /// Offset 2.
    pub card: u16,
    /// Offsets 4 and 12: the verifier.
    pub pair: Pair,
    /// The update pair as it is sent, at offsets 20 and 28 of version 1, 52 and
    /// 60 of version 2; zeros where the verifier serves for both (rule 3.4).
    pub update: Pair,
    /// Offset 20 of version 2; zero in version 1, which has no such byte.
    pub language: u8,
    /// Offsets 21 to 35 of version 2; zeros in version 1.
    pub reserved: [u8; 15],
    /// Offsets 36 and 38.
    pub expected: Mark,
    /// Offsets 42 and 44.
    pub next: Mark,
    /// Offset 48.
    pub edition: u16,
    /// Offset 50.
    pub length: u16,
}

impl CommandFields {
    /// Reads the fields from the first bytes, 52 in version 1 and 68 in
    /// version 2, if there are as many.
    pub fn from_bytes(format: Format, bytes: &[u8]) -> Option<CommandFields> {
        let bytes = bytes.get(..format.command_bytes())?;
        let update = bytes.get(format.update_at()..)?;
        let (mut language, mut reserved) = (0, [0; 15]);
        if format == Format::V2 {
            language = *bytes.get(20)?;
            put(&mut reserved, 0, bytes.get(21..36)?);
        }
        Some(CommandFields {
            format,
            act: *bytes.first()?,
            mode: *bytes.get(1)?,
            card: u16_at(bytes, 2)?,
            pair: Pair::new(u64_at(bytes, 4)?, u64_at(bytes, 12)?),
            update: Pair::new(u64_at(update, 0)?, u64_at(update, 8)?),
            language,
            reserved,
            expected: Mark::new(u16_at(bytes, 36)?, u32_at(bytes, 38)?),
            next: Mark::new(u16_at(bytes, 42)?, u32_at(bytes, 44)?),
            edition: u16_at(bytes, 48)?,
            length: u16_at(bytes, LENGTH_OFFSET)?,
        })
    }

    /// The update pair that is meant: the verifier if none is sent.
    pub fn update_pair(&self) -> Pair {
        match self.update {
            Pair { s: 0, x: 0 } => self.pair,
            sent => sent,
        }
    }

    /// The bytes of these fields. Nothing is checked; version 1 has no place
    /// for a language.
    pub fn to_bytes(&self) -> Vec<u8> {
        let mut bytes = vec![0; self.format.command_bytes()];
        put(&mut bytes, 0, &[self.act, self.mode]);
        put(&mut bytes, 2, &self.card.to_le_bytes());
        put(&mut bytes, 4, &self.pair.s.to_le_bytes());
        put(&mut bytes, 12, &self.pair.x.to_le_bytes());
        if self.format == Format::V2 {
            put(&mut bytes, 20, &[self.language]);
            put(&mut bytes, 21, &self.reserved);
        }
        let update = [self.update.s.to_le_bytes(), self.update.x.to_le_bytes()];
        put(&mut bytes, self.format.update_at(), &update.concat());
        put(&mut bytes, 36, &self.expected.desk.to_le_bytes());
        put(&mut bytes, 38, &self.expected.transaction.to_le_bytes());
        put(&mut bytes, 42, &self.next.desk.to_le_bytes());
        put(&mut bytes, 44, &self.next.transaction.to_le_bytes());
        put(&mut bytes, 48, &self.edition.to_le_bytes());
        put(&mut bytes, LENGTH_OFFSET, &self.length.to_le_bytes());
        bytes
    }

    /// The bytes of these fields followed by a payload, with the length field
    /// as it stands. Nothing is checked.
    pub fn followed_by(&self, payload: &[u8]) -> Vec<u8> {
        let mut bytes = self.to_bytes();
        bytes.extend_from_slice(payload);
        bytes
    }

    /// The bytes of these fields followed by a payload, with the length field
    /// set to the payload's length (65,535 for a longer one).
    pub fn with_payload(&self, payload: &[u8]) -> Vec<u8> {
        let length = u16::try_from(payload.len()).unwrap_or(u16::MAX);
        CommandFields { length, ..*self }.followed_by(payload)
    }
}

/// A well-formed command.
#[derive(Clone, Copy, Debug, PartialEq, Eq, Hash)]
pub struct Command<'a> {
    /// What it does.
    pub act: Act,
    /// Shared or exclusive.
    pub mode: Mode,
    /// The card, from 0.
    pub card: u16,
    /// By this pair it is stale or not (rule 4.2); its stamps may be zero.
    pub verifier: Pair,
    /// What it raises the stored pair by, and what tells its session (rule
    /// 3.4).
    pub update: Pair,
    /// Its desk: desk and start in the mode's own stamp of the update pair.
    pub desk: u32,
    /// The commit mark it expects to be stored.
    pub expected: Mark,
    /// The commit mark to be stored next.
    pub next: Mark,
    /// The edition named by act 4, else zero.
    pub edition: u16,
    /// The text of act 3 or 4, else empty.
    pub payload: &'a [u8],
}

impl<'a> Command<'a> {
    /// The command of this version in these lent bytes, or none if they are
    /// malformed.
    pub fn parse(format: Format, bytes: &'a [u8]) -> Option<Command<'a>> {
        let fields = CommandFields::from_bytes(format, bytes)?;
        let payload = bytes.get(format.command_bytes()..)?;
        let act = Act::from_numbers(format, fields.act, fields.language)?;
        let mode = Mode::from_number(fields.mode)?;
        let (verifier, update) = (fields.pair, fields.update_pair());
        let desk = mode.desk(update)?;
        let well_formed = payload.len() == usize::from(fields.length)
            && verifier.is_valid()
            && update.s >= verifier.s
            && update.x >= verifier.x
            && fields.reserved == [0; 15]
            && fields.expected.is_valid()
            && fields.next.is_valid()
            && fits_act(act, mode, &fields);
        well_formed.then_some(Command {
            act,
            mode,
            card: fields.card,
            verifier,
            update,
            desk,
            expected: fields.expected,
            next: fields.next,
            edition: fields.edition,
            payload,
        })
    }

    /// The session this command belongs to.
    pub fn session(&self) -> Session {
        Session {
            card: self.card,
            desk: self.desk,
            mode: self.mode,
            pair: self.update,
        }
    }
}

/// Whether mode, edition and length are such as the act may have (rule 3.3).
fn fits_act(act: Act, mode: Mode, fields: &CommandFields) -> bool {
    let names_edition = matches!(act, Act::Write(Language::Translation(_)));
    let mode_and_length = match act {
        Act::Write(_) => mode == Mode::Exclusive,
        Act::Read(_) | Act::Verify => fields.length == 0,
    };
    mode_and_length && (fields.edition != 0) == names_edition
}
