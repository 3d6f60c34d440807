//! A store in which a commit is one step, beside the real one (rules 16.2,
//! 16.11, 16.12, 16.19 and 16.20): the texts that are meant, and whether a
//! translation is meant to be current.

use std::collections::BTreeMap;

use super::formed::Sent;
use super::log::Update;
use super::recovery::text_in;
use super::steps::{all_due, open};
use super::{Check, Checked, Made};
use crate::library::Answer;

/// What is meant on a card.
#[derive(Clone, Debug, Default, PartialEq, Eq)]
struct Meant {
    texts: [Vec<u8>; 2],
    current: bool,
}

impl Meant {
    /// A text is written: the original, 0, or the translation, 1.
    fn write(&mut self, language: usize, text: &[u8]) {
        self.texts[language] = text.to_vec();
        self.current = language == 1;
    }
}

/// The store in which a commit is one step.
#[derive(Clone, Debug)]
pub struct Atomic {
    cards: Vec<Meant>,
    room: usize,
    /// The log of each desk under the rules, as it is now.
    logs: BTreeMap<u16, Vec<u8>>,
    /// Whether all desks keep section 16, so that every check must hold.
    by_rules: bool,
    /// The first check that did not hold, where some desk breaks a rule.
    pub broken: Option<Check>,
    /// Whether a recovery writes: its writes are nobody else's.
    pub recovering: bool,
}

impl Atomic {
    /// A fresh store, and no log.
    pub fn new(cards: usize, room: usize, by_rules: bool) -> Atomic {
        Atomic {
            cards: vec![Meant::default(); cards],
            room,
            logs: BTreeMap::new(),
            by_rules,
            broken: None,
            recovering: false,
        }
    }

    /// Every check must hold from now on, whoever breaks a rule.
    pub fn strict(&mut self) {
        self.by_rules = true;
    }

    /// A check that must hold where every desk keeps the rules.
    pub fn hold(
        &mut self,
        made: &mut Made,
        check: Check,
        holds: bool,
        told: impl FnOnce() -> String,
    ) -> Checked {
        if !holds && !self.by_rules {
            self.broken.get_or_insert(check);
            return Ok(());
        }
        made.hold(check, holds, told)
    }

    /// A well-formed command for a card of the store was answered. A read that
    /// expects no mark shows what is meant, and a write may be meant from now on.
    pub fn judged(
        &mut self,
        made: &mut Made,
        sent: &Sent,
        answer: &Answer,
        reply: &[u8],
    ) -> Checked {
        let at = usize::from(sent.card);
        let (number, plain) = (answer.number, sent.expected.desk == 0);
        if let (Some(language), 0, true) = (sent.reads(), number, plain) {
            let shown = &reply[..answer.fields[6] as usize];
            let meant = self.cards[at].texts[language].clone();
            self.hold(made, Check::ReadsMeant, shown == meant, || {
                format!("card {at} shows {shown:?}, and {meant:?} is meant")
            })?;
        }
        if let (2, 0 | 6, true) = (sent.act, number, plain) {
            let current = self.cards[at].current;
            self.hold(made, Check::ReadsCurrent, current == (number == 0), || {
                format!("card {at}: meant to be current: {current}, and the number is {number}")
            })?;
        }
        self.wrote(sent, number);
        Ok(())
    }

    /// A command got a number: an accepted write of somebody else, one without
    /// marks, is meant from now on.
    pub fn wrote(&mut self, sent: &Sent, number: u8) {
        let plain = sent.expected.desk == 0 && sent.next.desk == 0 && !self.recovering;
        if let (Some(language), 0, true) = (sent.writes(), number, plain) {
            self.cards[usize::from(sent.card)].write(language, sent.payload);
        }
    }

    /// A desk's log is now this. If its transaction is committed by that, all
    /// its updates are meant at once.
    pub fn logged(&mut self, desk: u16, log: &[u8]) {
        let before = self.logs.insert(desk, log.to_vec()).unwrap_or_default();
        let (Some((number, updates)), None) = (open(&before), open(log)) else {
            return;
        };
        if last_record(log) != Some((super::log::COMMIT, number)) {
            return;
        }
        for update in updates {
            if let Some(card) = self.cards.get_mut(usize::from(update.card)) {
                card.write(usize::from(update.side) - 1, &update.text);
            }
        }
    }

    /// The updates of a card that are due by a desk's log.
    fn due(&self, desk: u16, card: usize) -> Vec<Update> {
        let mut due = self.logs.get(&desk).map_or(Vec::new(), |log| all_due(log));
        due.retain(|update| usize::from(update.card) == card);
        due
    }

    /// A card of the real store: without a mark it has what is meant, with one
    /// once what is due by the log of the mark's desk is applied.
    pub fn stands(&mut self, made: &mut Made, image: &[u8], card: usize) -> Checked {
        let entry = 16 + 32 * card;
        let two = |at: usize| u16::from_le_bytes([image[entry + at], image[entry + at + 1]]);
        let (mark, edition, from) = (two(16), two(24), two(26));
        let text = |side| text_in(image, self.cards.len(), self.room, card, side).to_vec();
        let mut stands = Meant {
            texts: [text(0), text(1)],
            current: from != 0 && from == edition,
        };
        for update in self.due(mark, card) {
            stands.write(usize::from(update.side) - 1, &update.text);
        }
        let meant = self.cards[card].clone();
        let same = stands.texts == meant.texts;
        self.hold(made, Check::Meant, same, || {
            let (stands, meant) = (&stands.texts, &meant.texts);
            format!("card {card} has {stands:?}, mark {mark}, and {meant:?} is meant")
        })?;
        let same = stands.current == meant.current;
        self.hold(made, Check::MeantCurrent, same, || {
            let (stands, meant) = (stands.current, meant.current);
            format!("card {card}, mark {mark}: current {stands}, and {meant} is meant")
        })
    }
}

/// The kind of a log's last record, and the number that it names first.
fn last_record(log: &[u8]) -> Option<(u8, u32)> {
    let read = super::log::read(log)?;
    let (kind, body) = read.records.last()?;
    let number = body.get(..4)?.try_into().ok()?;
    Some((*kind, u32::from_le_bytes(number)))
}
