//! The guard of one card (rules 4.1 to 4.6 and 4.9): an entry judges a command,
//! and answers the entry that stands afterwards or the number of its refusal.

use crate::command::{Act, Command};
use crate::entry::{Entry, Translation};
use crate::language::Language;
use crate::number::{
    BEHIND, BUFFER_SHORT, LAST_EDITION, MARK_DIFFERS, PAYLOAD_TOO_LONG, STALE, TOO_FAR_AHEAD,
};

impl Entry {
    /// The new entry, or the number of the row by which the command is refused.
    pub fn take(self, command: &Command, room: usize, reply_length: usize) -> Result<Entry, u8> {
        match self.refusal(command, room, reply_length) {
            Some(number) => Err(number),
            None => Ok(self.accepted(command)),
        }
    }

    /// Whether the translation into this language is behind (rule 4.6).
    pub fn is_behind(self, language: u8) -> bool {
        let from = self.translation(language).from;
        from == 0 || from != self.edition
    }

    /// The rows of rule 4.1 from 3 on, in order.
    fn refusal(self, command: &Command, room: usize, reply_length: usize) -> Option<u8> {
        if command.mode.is_below(command.verifier, self.pair) {
            Some(STALE)
        } else if command.update.is_too_far_ahead(self.pair) {
            Some(TOO_FAR_AHEAD)
        } else if !command.expected.passes(self.mark) {
            Some(MARK_DIFFERS)
        } else if command.payload.len() > room {
            Some(PAYLOAD_TOO_LONG)
        } else if self.edition_refuses(command) {
            Some(BEHIND)
        } else if command.act == Act::Write(Language::Original) && self.edition == u16::MAX {
            Some(LAST_EDITION)
        } else if self.length_read(command.act) > reply_length {
            Some(BUFFER_SHORT)
        } else {
            None
        }
    }

    /// Row 6.
    fn edition_refuses(self, command: &Command) -> bool {
        match command.act {
            Act::Read(Language::Translation(language)) => self.is_behind(language),
            Act::Write(Language::Translation(_)) => command.edition != self.edition,
            _ => false,
        }
    }

    /// The length of the text a read hands over, zero for every other act.
    fn length_read(self, act: Act) -> usize {
        match act {
            Act::Read(language) => usize::from(self.length(language)),
            Act::Write(_) | Act::Verify => 0,
        }
    }

    /// The entry after an accepted command (rules 4.4 and 4.5).
    fn accepted(self, command: &Command) -> Entry {
        let mut entry = self;
        entry.pair = self.pair.larger(command.update);
        entry.mark = command.next;
        let length = u16::try_from(command.payload.len()).unwrap_or(u16::MAX);
        match command.act {
            Act::Write(Language::Original) => {
                entry.edition = self.edition.saturating_add(1);
                entry.original_length = length;
            }
            Act::Write(Language::Translation(language)) => {
                if let Some(written) = entry.translations.get_mut(usize::from(language)) {
                    let from = command.edition;
                    *written = Translation { from, length };
                }
            }
            Act::Read(_) | Act::Verify => {}
        }
        entry
    }
}
