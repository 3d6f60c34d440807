//! The history engine beside the store (rules 14.1 to 14.11), up to its first
//! 22: what it must answer is what the store must, and what it must keep is the
//! accepted commands, end to end.

use second::{CommandFields, Format};

use super::formed::{formed, meant};
use super::runs::whole;
use super::store::Card;
use super::{Check, Checked, Made};
use crate::library::Answer;

/// The bytes that the engine is lent (rule 14.3).
pub const LENT: usize = 43_168;

/// How many commands are kept, and how many bytes their payloads have (rule
/// 14.2).
const COMMANDS: usize = 200;
const PAYLOADS: usize = 32_768;

/// A request as the rules have the store answer it.
#[derive(Clone, Debug, PartialEq, Eq)]
pub struct Request {
    /// The command.
    pub command: Vec<u8>,
    /// The reply fields of its card as it stood before.
    pub before: [u64; 7],
    /// The answer.
    pub answer: Answer,
    /// The reply buffer before, and after.
    pub lent: Vec<u8>,
    /// See [`Request::lent`].
    pub reply: Vec<u8>,
}

/// What the engine has kept so far.
#[derive(Clone, Debug)]
pub struct Kept {
    bytes: Vec<u8>,
    used: usize,
    commands: usize,
    payloads: usize,
}

impl Kept {
    /// Nothing kept, in bytes that hold anything (rule 14.3).
    pub fn nothing(bytes: &[u8; LENT]) -> Kept {
        Kept {
            bytes: bytes.to_vec(),
            used: 0,
            commands: 0,
            payloads: 0,
        }
    }

    /// Whether a limit would be passed with this command (rules 14.2 and 14.7).
    fn full(&self, command: &[u8]) -> bool {
        self.commands == COMMANDS || self.payloads + command.len() - 52 > PAYLOADS
    }

    /// An accepted command is kept (rule 14.8).
    fn keep(&mut self, command: &[u8]) {
        let end = self.used + command.len();
        self.bytes[self.used..end].copy_from_slice(command);
        self.used = end;
        self.commands += 1;
        self.payloads += command.len() - 52;
    }

    /// The engine answered a request, and holds these bytes, so many of them
    /// used. Whether it goes on: it ends with the first 22.
    pub fn judged(
        &mut self,
        made: &mut Made,
        asked: &Request,
        (answer, reply): (&Answer, &[u8]),
        (bytes, used): (&[u8; LENT], u64),
    ) -> Checked<bool> {
        let accepted = asked.answer.number == 0;
        let full = accepted && self.full(&asked.command);
        made.hold(Check::HistoryFull, full == (answer.number == 22), || {
            format!("a limit: {full}, and the number is {}", answer.number)
        })?;
        if full {
            let told = (answer.fields, reply);
            made.same(Check::HistoryFull, told, (asked.before, &asked.lent[..]))?;
        } else {
            let told = (answer, reply);
            made.same(Check::History, told, (&asked.answer, &asked.reply[..]))?;
        }
        if accepted && !full {
            self.keep(&asked.command);
        }
        let same = bytes[..] == self.bytes && used == self.used as u64;
        made.hold(Check::HistoryBytes, same, || {
            let at = bytes.iter().zip(&self.bytes).position(|(a, b)| a != b);
            format!(
                "used: {used}, by the rules {}; they differ at {at:?}",
                self.used
            )
        })?;
        Ok(!full)
    }
}

/// The commands that any bytes mean, so many of them used (rule 14.4).
fn commands_in(bytes: &[u8], used: u64) -> Vec<&[u8]> {
    let used = bytes.len().min(usize::try_from(used).unwrap_or(usize::MAX));
    let (mut commands, mut at) = (Vec::new(), 0);
    while let Some(end) = whole(Format::V1, &bytes[..used], at) {
        commands.push(&bytes[at..end]);
        at = end;
    }
    commands
}

/// A card as it is worked out from kept commands (rules 14.5 and 14.6).
fn worked_out(commands: &[&[u8]], number: u16) -> Card {
    let mut card = Card::default();
    for command in commands {
        let Some(fields) = CommandFields::from_bytes(Format::V1, command) else {
            continue;
        };
        if fields.card != number {
            continue;
        }
        let pair = meant(&fields);
        card.largest.s = card.largest.s.max(pair.s);
        card.largest.x = card.largest.x.max(pair.x);
        card.mark = fields.next;
        match fields.act {
            3 => (card.edition, card.texts[0]) = (card.edition + 1, command[52..].to_vec()),
            4 => (card.from[0], card.texts[1]) = (fields.edition, command[52..].to_vec()),
            _ => {}
        }
    }
    card.current[0] = card.from[0] == card.edition && card.edition != 0;
    card
}

/// What the engine holds and says: the answer, the reply buffer, the bytes, and
/// how many of them are used.
#[derive(Clone, Debug, PartialEq, Eq)]
pub struct State {
    /// The answer.
    pub answer: Answer,
    /// The reply buffer.
    pub reply: Vec<u8>,
    /// The bytes.
    pub bytes: Vec<u8>,
    /// How many of them are used.
    pub used: u64,
}

/// A request on any bytes, for so many cards and such room: what is there then
/// (rules 14.7 to 14.9).
pub fn after(before: &State, (cards, room): (u16, u16), command: &[u8]) -> State {
    let mut after = before.clone();
    let (number, fields) = (1, [0; 7]);
    after.answer = Answer { number, fields };
    let Some(sent) = formed(command) else {
        return after;
    };
    if sent.card >= cards {
        after.answer.number = 2;
        return after;
    }
    let mut commands = commands_in(&before.bytes, before.used);
    let card = worked_out(&commands, sent.card);
    let end: usize = commands.iter().map(|kept| kept.len()).sum();
    let payloads = end - 52 * commands.len() + sent.payload.len();
    let full = commands.len() >= COMMANDS || payloads > PAYLOADS;
    after.answer.number = match card.number(&sent, room.into(), before.reply.len()) {
        0 if full => 22,
        number => number,
    };
    after.answer.fields = card.fields(0, 0);
    if after.answer.number != 0 {
        return after;
    }
    commands.push(command);
    let text = sent.reads().map_or(&[][..], |text| &card.texts[text]);
    after.answer.fields = worked_out(&commands, sent.card).fields(0, text.len());
    after.reply[..text.len()].copy_from_slice(text);
    after.bytes[end..end + command.len()].copy_from_slice(command);
    after.used = (end + command.len()) as u64;
    after
}
