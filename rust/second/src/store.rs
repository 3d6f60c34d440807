//! The answer to one command, in each version (rules 4.1, 4.7 and 4.8).

use crate::command::{Act, Command};
use crate::entry::Entry;
use crate::format::Format;
use crate::image::Layout;
use crate::language::Language;
use crate::number::{ACCEPTED, MALFORMED, NO_SUCH_CARD, UNSOUND};
use crate::stamp::{Mark, Pair};

/// The seven reply fields.
#[derive(Clone, Copy, Debug, Default, PartialEq, Eq, Hash)]
pub struct ReplyFields {
    /// s and x.
    pub pair: Pair,
    /// Commit desk and transaction.
    pub mark: Mark,
    /// The edition.
    pub edition: u16,
    /// Translated-from of the language that the command names; of language 0
    /// for an act that names none.
    pub translated_from: u16,
    /// How long the text is that an accepted read shows; with every other
    /// answer 0.
    pub length: u16,
}

impl ReplyFields {
    /// The seven fields in the order of rule 4.8, as wide numbers.
    pub fn numbers(&self) -> [u64; 7] {
        [
            self.pair.s,
            self.pair.x,
            self.mark.desk.into(),
            self.mark.transaction.into(),
            self.edition.into(),
            self.translated_from.into(),
            self.length.into(),
        ]
    }
}

/// An answer: its number, 0 to 9 or 17, and the reply fields.
#[derive(Clone, Copy, Debug, Default, PartialEq, Eq, Hash)]
pub struct Answer {
    /// The number of the row that applies.
    pub number: u8,
    /// The reply fields.
    pub fields: ReplyFields,
}

impl Answer {
    /// An answer whose fields are zeros.
    pub(crate) fn zeros(number: u8) -> Answer {
        let fields = ReplyFields::default();
        Answer { number, fields }
    }

    /// An answer to an act, whose fields are an entry's.
    pub(crate) fn of_entry(number: u8, act: Act, entry: Entry, length: u16) -> Answer {
        let language = match act {
            Act::Read(Language::Translation(language))
            | Act::Write(Language::Translation(language)) => language,
            _ => 0,
        };
        let fields = ReplyFields {
            pair: entry.pair,
            mark: entry.mark,
            edition: entry.edition,
            translated_from: entry.translation(language).from,
            length,
        };
        Answer { number, fields }
    }
}

/// Judges a command of version 1, as [`Format::answer`] does.
pub fn answer(image: &mut [u8], command: &[u8], reply: &mut [u8]) -> Answer {
    Format::V1.answer(image, command, reply)
}

impl Format {
    /// Judges a command on an image, both of this version, with a lent reply
    /// buffer. Only an accepted command changes the image, and only an
    /// accepted read the reply buffer.
    pub fn answer(self, image: &mut [u8], command: &[u8], reply: &mut [u8]) -> Answer {
        let Some(layout) = Layout::of_sound(self, image) else {
            return Answer::zeros(UNSOUND);
        };
        let Some(command) = Command::parse(self, command) else {
            return Answer::zeros(MALFORMED);
        };
        let Some(stored) = layout.entry(image, command.card) else {
            return Answer::zeros(NO_SUCH_CARD);
        };
        match stored.take(&command, layout.room(), reply.len()) {
            Ok(entry) => accept(layout, image, &command, entry, reply),
            Err(number) => Answer::of_entry(number, command.act, stored, 0),
        }
    }
}

/// Carries out an accepted command.
fn accept(
    layout: Layout,
    image: &mut [u8],
    command: &Command,
    entry: Entry,
    reply: &mut [u8],
) -> Answer {
    layout.put_entry(image, command.card, entry);
    let length = match command.act {
        Act::Read(language) => {
            let text = layout.text(image, command.card, language);
            fill_first(reply, text.unwrap_or_default());
            entry.length(language)
        }
        Act::Write(language) => {
            layout.put_text(image, command.card, language, command.payload);
            0
        }
        Act::Verify => 0,
    };
    Answer::of_entry(ACCEPTED, command.act, entry, length)
}

/// Puts a text at the front of the reply buffer (rule 4.7).
pub(crate) fn fill_first(reply: &mut [u8], text: &[u8]) {
    reply
        .iter_mut()
        .zip(text)
        .for_each(|(to, from)| *to = *from);
}
