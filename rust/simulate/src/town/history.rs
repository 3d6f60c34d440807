//! The history engine beside the store: it gets what the store gets, up to its
//! first 22, or to a conversion.

use second::random::Random;
use second::{CommandFields, Mark, Pair};

use super::Town;
use crate::checks::history::{after, Kept, State, LENT};
use crate::checks::store::Store;
use crate::checks::{Check, Checked};
use crate::library::{Answer, Library};
use crate::tally::{Fault, Operation};

/// The engine's bytes, and what the rules have it keep.
pub struct Engine {
    bytes: Box<[u8; LENT]>,
    used: u64,
    kept: Kept,
}

impl Engine {
    /// An engine that has kept nothing, in bytes that hold anything.
    pub(super) fn nothing() -> Engine {
        let bytes = Box::new([0x77; LENT]);
        let kept = Kept::nothing(&bytes);
        Engine {
            bytes,
            used: 0,
            kept,
        }
    }
}

/// A command that may stand among kept ones, and that may be sent.
fn any_command(random: &mut Random) -> Vec<u8> {
    let stamp = |random: &mut Random| {
        let desk = 1 + random.below(2);
        random.pick(&[0, desk << 16, 1 << 32 | desk << 16, 2 << 32 | desk << 16])
    };
    let mark = |random: &mut Random| match random.one_in(6) {
        true => Mark::new(1, 1 + random.below(2) as u32),
        false => Mark::default(),
    };
    let act = random.pick(&[1, 2, 2, 3, 3, 4, 4, 5, 6]);
    let writes = act == 3 || act == 4;
    let length = if writes { random.index(20) } else { 0 };
    let fields = CommandFields {
        act,
        mode: if writes { 2 } else { random.pick(&[1, 2]) },
        card: random.below(3) as u16,
        pair: Pair::new(stamp(random), stamp(random)),
        update: match random.one_in(3) {
            true => Pair::new(stamp(random), stamp(random)),
            false => Pair::default(),
        },
        expected: mark(random),
        next: mark(random),
        edition: if act == 4 {
            random.between(1, 4) as u16
        } else {
            0
        },
        ..CommandFields::default()
    };
    fields.with_payload(&random.bytes(length))
}

/// A shape of one card with long texts.
const LONG: (u16, u16) = (1, 1_024);

impl<L: Library> Town<'_, L> {
    /// A history engine of its own gets one original after the other, long ones,
    /// up to where their payloads are too many bytes.
    pub(super) fn long_history(&mut self) -> Checked {
        let mut store = Store::new(LONG.0.into(), LONG.1.into(), true);
        let Engine {
            mut bytes,
            mut used,
            mut kept,
        } = Engine::nothing();
        let text = self.random.bytes(LONG.1.into());
        let full = self.one_in(2);
        loop {
            let short = [self.random.index(text.len()), text.len()][usize::from(full)];
            let command = CommandFields {
                act: 3,
                mode: 2,
                pair: Pair::new(0, 1 << 16),
                ..CommandFields::default()
            };
            store.unheard = Some(Vec::new());
            store.recovering(&mut self.tally.made, &command.with_payload(&text[..short]))?;
            for asked in store.unheard.take().unwrap_or_default() {
                let command = &asked.command;
                let answer = self
                    .library
                    .history(&mut bytes, &mut used, LONG, command, &mut []);
                self.tally.number(Operation::History, answer.number);
                let made = &mut self.tally.made;
                if !kept.judged(made, &asked, (&answer, &[]), (&bytes, used))? {
                    self.tally.fault(Fault::HistoryLong);
                    return Ok(());
                }
            }
        }
    }

    /// A history engine over bytes that nobody kept: any commands, and then
    /// anything; and a number that says any of them are used.
    pub(super) fn any_history(&mut self) -> Checked {
        let mut bytes = Box::new([0x33; LENT]);
        let count = self.random.pick(&[0, 3, 8, 30, 199, 200, 201]);
        let mut end = 0;
        for _ in 0..count {
            let command = any_command(&mut self.random);
            bytes[end..end + command.len()].copy_from_slice(&command);
            end += command.len();
        }
        let mut used = match self.random.below(4) {
            0 => self.random.below(end as u64 + 80),
            1 => self.random.pick(&[LENT as u64, LENT as u64 + 1, u64::MAX]),
            _ => end as u64,
        };
        (0..4).try_for_each(|_| self.on_any_history(&mut bytes, &mut used))
    }

    /// One request on such bytes.
    fn on_any_history(&mut self, bytes: &mut [u8; LENT], used: &mut u64) -> Checked {
        let (cards, room) = (2, 16);
        let command = any_command(&mut self.random);
        let mut reply = vec![0x5a; self.random.index(20)];
        let before = State {
            answer: Answer::default(),
            reply: reply.clone(),
            bytes: bytes.to_vec(),
            used: *used,
        };
        let rules = after(&before, (cards, room), &command);
        let answer = self
            .library
            .history(bytes, used, (cards, room), &command, &mut reply);
        self.tally.number(Operation::History, answer.number);
        let told = State {
            answer,
            reply,
            bytes: bytes.to_vec(),
            used: *used,
        };
        self.tally.made.hold(Check::AnyHistory, told == rules, || {
            let (told, rules) = ((told.answer, told.used), (rules.answer, rules.used));
            format!("the library: {told:?}; the rules: {rules:?}")
        })
    }

    /// The history engine gets what the store got since it was last asked.
    pub(super) fn hear(&mut self) -> Checked {
        let Some(requests) = self.store.unheard.as_mut().map(std::mem::take) else {
            return Ok(());
        };
        let shape = (self.shape.cards as u16, self.shape.room as u16);
        for asked in requests {
            let Some(Engine { bytes, used, kept }) = &mut self.history else {
                break;
            };
            let mut reply = asked.lent.clone();
            let answer = self
                .library
                .history(bytes, used, shape, &asked.command, &mut reply);
            self.tally.number(Operation::History, answer.number);
            let made = &mut self.tally.made;
            if !kept.judged(made, &asked, (&answer, &reply), (bytes, *used))? {
                self.tally.fault(Fault::HistoryFull);
                (self.history, self.store.unheard) = (None, None);
            }
        }
        Ok(())
    }
}
