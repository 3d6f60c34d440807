//! The history engine (rules 14.1 to 14.9): it has no image, and finds each
//! answer in the commands that it accepted before. It is for version 1 alone.

use crate::command::{Act, Command, CommandFields};
use crate::entry::{Entry, Translation};
use crate::format::Format::V1;
use crate::language::Language;
use crate::number::{ACCEPTED, HISTORY_FULL, MALFORMED, NO_SUCH_CARD};
use crate::stamp::Pair;
use crate::store::{fill_first, Answer};
use crate::stream::Reader;

/// How many commands are kept at most.
pub const MOST_KEPT: usize = 200;
/// How many payload bytes the kept commands have in all at most.
pub const MOST_PAYLOAD: usize = 32_768;
/// The bytes of a history at both limits.
pub const HISTORY_BYTES: usize = 43_168;

/// The kept commands, oldest first.
#[derive(Clone, Debug, Default, PartialEq, Eq)]
pub struct History {
    kept: Vec<Vec<u8>>,
}

impl History {
    /// The history in the first `used` bytes: its whole commands, end to end,
    /// up to the first that is not whole. Any bytes hold some history.
    pub fn in_bytes(bytes: &[u8], used: usize) -> History {
        let used = bytes.get(..used).unwrap_or(bytes);
        History {
            kept: Reader::new(V1, used).map(<[u8]>::to_vec).collect(),
        }
    }

    /// How many commands are kept.
    pub fn count(&self) -> usize {
        self.kept.len()
    }

    /// How many payload bytes the kept commands have in all.
    pub fn payload(&self) -> usize {
        let payloads = self.kept.iter().map(|bytes| payload(bytes).len());
        payloads.sum()
    }

    /// How many bytes the kept commands take end to end.
    pub fn length(&self) -> usize {
        self.kept.iter().map(Vec::len).sum()
    }

    /// The kept commands for a card, the last one first, with their fields.
    fn about(&self, card: u16) -> impl Iterator<Item = (CommandFields, &[u8])> {
        let fields = |bytes: &Vec<u8>| CommandFields::from_bytes(V1, bytes);
        let all = self.kept.iter().rev();
        all.filter_map(move |bytes| Some((fields(bytes)?, payload(bytes))))
            .filter(move |(fields, _)| fields.card == card)
    }

    /// The kept writes of a card's text, the last one first.
    fn writes(
        &self,
        card: u16,
        language: Language,
    ) -> impl Iterator<Item = (CommandFields, &[u8])> {
        let act = Act::Write(language).number();
        self.about(card)
            .filter(move |(fields, _)| fields.act == act)
    }

    /// A card's text: the payload of the last kept write of that language, or
    /// none.
    pub fn text(&self, card: u16, language: Language) -> &[u8] {
        let last = self.writes(card, language).next();
        last.map_or(&[], |(_, text)| text)
    }

    /// A card's entry, as the kept commands have made it.
    pub fn entry(&self, card: u16) -> Entry {
        let length = |language| u16::try_from(self.text(card, language).len()).unwrap_or(u16::MAX);
        let pairs = self.about(card).map(|(fields, _)| fields.update_pair());
        let into = Language::Translation(0);
        let translated = self.writes(card, into).next();
        let editions = self.writes(card, Language::Original).count();
        let none = Translation::default();
        let translation = Translation {
            from: translated.map_or(0, |(last, _)| last.edition),
            length: length(into),
        };
        Entry {
            pair: pairs.fold(Pair::default(), Pair::larger),
            mark: self
                .about(card)
                .next()
                .map_or_else(Default::default, |(last, _)| last.next),
            edition: u16::try_from(editions).unwrap_or(u16::MAX),
            original_length: length(Language::Original),
            translations: [translation, none, none, none],
        }
    }

    /// Whether a limit is passed if this command is kept as well (rule 14.2).
    pub fn full_for(&self, command: &Command) -> bool {
        let payload = self.payload().saturating_add(command.payload.len());
        self.count() >= MOST_KEPT || payload > MOST_PAYLOAD
    }

    /// Judges a command for so many cards with so much room. An accepted one
    /// is kept; a refusal changes nothing.
    pub fn answer(&mut self, cards: u16, room: u16, bytes: &[u8], reply: &mut [u8]) -> Answer {
        let Some(command) = Command::parse(V1, bytes) else {
            return Answer::zeros(MALFORMED);
        };
        if command.card >= cards {
            return Answer::zeros(NO_SUCH_CARD);
        }
        let stands = self.entry(command.card);
        if let Err(number) = stands.take(&command, room.into(), reply.len()) {
            return Answer::of_entry(number, command.act, stands, 0);
        }
        if self.full_for(&command) {
            return Answer::of_entry(HISTORY_FULL, command.act, stands, 0);
        }
        let mut length = 0;
        if let Act::Read(language) = command.act {
            fill_first(reply, self.text(command.card, language));
            length = stands.length(language);
        }
        self.kept.push(bytes.to_vec());
        Answer::of_entry(ACCEPTED, command.act, self.entry(command.card), length)
    }
}

/// The payload of a whole command.
fn payload(bytes: &[u8]) -> &[u8] {
    bytes.get(V1.command_bytes()..).unwrap_or_default()
}

/// Judges a command on the history in the first `used` of these bytes, and
/// writes an accepted one behind the others.
pub fn answer_in(
    kept: &mut [u8],
    used: &mut usize,
    cards: u16,
    room: u16,
    command: &[u8],
    reply: &mut [u8],
) -> Answer {
    let mut history = History::in_bytes(kept, *used);
    let place = history.length();
    let told = history.answer(cards, room, command, reply);
    if told.number == ACCEPTED {
        if let Some(behind) = kept.get_mut(place..) {
            fill_first(behind, command);
        }
        *used = history.length();
    }
    told
}
