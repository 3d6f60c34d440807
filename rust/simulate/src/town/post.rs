//! The post: messages that come late, twice, out of order or not at all.

use lupaniele::DeskId;
use second::{Format, Pair};
use story::Scene;

use super::Town;
use crate::checks::formed::formed_as;
use crate::checks::Checked;
use crate::library::{Answer, Library};
use crate::tally::{Fault, Step};

/// A message on its way.
#[derive(Clone, Debug)]
pub struct Message {
    /// Who sent it, or whom it is for.
    pub desk: usize,
    /// The start of that desk when it was sent.
    pub who: DeskId,
    /// The step in which it was sent.
    pub sent: u64,
    /// The card.
    pub card: usize,
    /// What it says.
    pub body: Body,
}

/// What a message says.
#[derive(Clone, Debug)]
pub enum Body {
    /// To a manager: a mode and a pair; and, if it was proposed right after a
    /// denial, how many entries that queue had accepted at the denial.
    Ask(usize, u8, Pair, Option<u64>),
    /// To a manager.
    Leave(usize),
    /// To the store: a command, the length of the reply buffer, and the line
    /// of the log that it writes out; in a town of transactions which command
    /// it is.
    Command(Vec<u8>, usize, Option<u64>),
    /// The same, of version 2.
    Command2(Vec<u8>, usize, Option<u64>),
    /// To a desk, from a manager: mode, number, whether it holds the lock, the
    /// largest pair, and how many entries that queue has accepted.
    Stands(usize, u8, u8, bool, Pair, u64),
    /// To a desk, from the store: the act and the language, the line, the
    /// answer, the text.
    Told((u8, u8), Option<u64>, Answer, Vec<u8>),
}

impl Body {
    /// A command of a version, the length of the reply buffer, and the line.
    pub fn command(format: Format, bytes: Vec<u8>, lent: usize, line: Option<u64>) -> Body {
        match format {
            Format::V1 => Body::Command(bytes, lent, line),
            Format::V2 => Body::Command2(bytes, lent, line),
        }
    }

    /// The version and the bytes of a command, and the line.
    pub fn as_command(&self) -> Option<(Format, &[u8], Option<u64>)> {
        match self {
            Body::Command(bytes, _, line) => Some((Format::V1, bytes, *line)),
            Body::Command2(bytes, _, line) => Some((Format::V2, bytes, *line)),
            _ => None,
        }
    }
}

/// The act and the language that the bytes of a command have.
pub fn act_in(format: Format, bytes: &[u8]) -> (u8, u8) {
    let at = |at: usize| bytes.get(at).copied().unwrap_or(0);
    match format {
        Format::V1 => (at(0), 0),
        Format::V2 => (at(0), at(20)),
    }
}

impl<L: Library> Town<'_, L> {
    /// A desk sends a message.
    pub(super) fn send(&mut self, desk: usize, card: usize, body: Body) {
        self.answer_to(desk, self.desks[desk].who, card, body);
    }

    /// A message that is drawn from the post arrives.
    pub(super) fn deliver(&mut self) -> Checked {
        if self.post.is_empty() {
            return Ok(());
        }
        self.tally.step(Step::Deliver);
        let at = self.random.index(self.post.len().min(self.shape.storm));
        let message = self.post.remove(at);
        let late = self.now - message.sent > 50;
        self.tally.fault_if(late, Fault::Late);
        let same = |other: &&Message| other.desk == message.desk && other.sent < message.sent;
        let overtaken = self.post.iter().any(|other| same(&other));
        self.tally.fault_if(overtaken, Fault::Overtaken);
        self.arrive(message)
    }

    /// A message is lost.
    pub(super) fn lose(&mut self) -> Checked {
        self.tally.step(Step::Lose);
        if self.post.is_empty() {
            return Ok(());
        }
        let at = self.random.index(self.post.len());
        let message = self.post.remove(at);
        self.tally.fault(Fault::Lost);
        self.tell(|| Scene::Said(format!("a message of desk {} is lost", message.who)));
        Ok(())
    }

    /// A message is on its way twice.
    pub(super) fn repeat(&mut self) -> Checked {
        self.tally.step(Step::Repeat);
        if self.post.is_empty() {
            return Ok(());
        }
        let at = self.random.index(self.post.len());
        let again = self.post[at].clone();
        self.tally.fault(Fault::Repeated);
        self.tell(|| {
            Scene::Said(format!(
                "a message of desk {} is on its way twice",
                again.who
            ))
        });
        self.post.push(again);
        Ok(())
    }

    fn arrive(&mut self, message: Message) -> Checked {
        let Message {
            desk,
            who,
            card,
            body,
            ..
        } = message;
        if self.cut_off(who, &body) {
            return Ok(());
        }
        match body {
            Body::Ask(manager, mode, pair, denied) => {
                self.asks(desk, who, (card, manager), (mode, pair), denied)
            }
            Body::Leave(manager) => self.leaves(desk, who, (card, manager)),
            Body::Command(bytes, lent, line) => {
                self.comes((desk, who, card), Format::V1, &bytes, (lent, line))
            }
            Body::Command2(bytes, lent, line) => {
                self.comes((desk, who, card), Format::V2, &bytes, (lent, line))
            }
            told => self.hears(desk, who, card, told),
        }
    }

    /// A command comes to the store, and its answer goes back.
    fn comes(
        &mut self,
        from: (usize, DeskId, usize),
        format: Format,
        bytes: &[u8],
        (lent, line): (usize, Option<u64>),
    ) -> Checked {
        let (desk, who, card) = from;
        let format = self.taken_as(format);
        let answer = self.receive(from, format, bytes, lent)?;
        let length = (answer.fields[6] as usize).min(lent);
        let text = self.reply[..length].to_vec();
        let told = Body::Told(act_in(format, bytes), line, answer, text);
        self.answer_to(desk, who, card, told);
        Ok(())
    }

    /// An answer goes back to who sent the message, whether that desk is still
    /// there or not.
    pub(super) fn answer_to(&mut self, desk: usize, who: DeskId, card: usize, body: Body) {
        let sent = self.now;
        self.post.push(Message {
            desk,
            who,
            sent,
            card,
            body,
        });
    }

    /// The store judges a command that arrives, and what is behind it is
    /// counted.
    fn receive(
        &mut self,
        from: (usize, DeskId, usize),
        format: Format,
        bytes: &[u8],
        lent: usize,
    ) -> Checked<Answer> {
        let answer = self.judge_as(format, bytes, lent)?;
        self.came(from, format, bytes, &answer);
        Ok(answer)
    }

    /// Counts what is behind a command that came, and behind its answer.
    pub(super) fn came(
        &mut self,
        (desk, who, card): (usize, DeskId, usize),
        format: Format,
        bytes: &[u8],
        answer: &Answer,
    ) {
        let accepted = answer.number == 0;
        self.tally
            .fault_if(self.desks[desk].who != who, Fault::Ghost);
        let lapsed = self.lapsed(card, who.number());
        self.tally.fault_if(lapsed, Fault::LateByLease);
        self.tally
            .fault_if(lapsed && answer.number == 3, Fault::KeptOut);
        let one_of_two = self.against(card).contains(&who.number());
        self.tally.fault_if(one_of_two, Fault::TwoSend);
        let decided = one_of_two && answer.number == 3;
        self.tally.fault_if(decided, Fault::TwoDecided);
        if let Some(sent) = formed_as(format, bytes).filter(|_| accepted) {
            let opened = sent.verifier != sent.update;
            self.tally.fault_if(opened, Fault::Opened);
            let zero = opened && sent.verifier == Pair::default();
            self.tally.fault_if(zero, Fault::OpenedZero);
        }
        self.tally.fault_if(answer.number == 1, Fault::Malformed);
        self.tally.fault_if(answer.number == 7, Fault::Worn);
    }
}
