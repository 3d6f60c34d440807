//! Nonsense: damaged images, queues and logs, on copies, and requests that no
//! desk should make. Each gets its number and changes nothing. And a card that
//! is written until it has no edition left.

use second::{CommandFields, Format, Pair};

use super::Town;
use crate::checks::desk::{proposed, shown, Proposal};
use crate::checks::log::{checked, read, COMMIT};
use crate::checks::queue::{turned, Turn};
use crate::checks::store::NOT_SOUND;
use crate::checks::{Check, Checked};
use crate::library::{Held, Lease, Library};
use crate::tally::{Fault, Operation, Step};

/// A lease that is over.
const OVER: Lease = Lease {
    period: 30.0,
    drift: 0.0,
    begin: 0.0,
    now: 30.0,
};

impl<L: Library> Town<'_, L> {
    pub(super) fn odd(&mut self) -> Checked {
        self.tally.step(Step::Odd);
        match self.random.below(9) {
            _ if self.one_in(60) => self.long_history(),
            _ if self.one_in(6) => self.any_history(),
            0 if self.store.format == Format::V2 => self.damaged_image2(),
            0 => self.damaged_image(),
            1 => self.damaged_queue(),
            2 => self.damaged_log(),
            3 => self.odd_proposal(),
            4 => self.odd_shown(),
            5 => self.odd_conversion(),
            6 => self.odd_image2(),
            7 => self.odd_step(),
            _ => self.odd_image(),
        }
    }

    /// A copy of the image with a byte changed at one of these places, so that
    /// it is not sound: every command gets 9.
    fn damaged_copy(&mut self, places: &[usize]) -> Checked<Vec<u8>> {
        let mut image = self.image.clone();
        image[self.random.pick(places)] ^= 0x40;
        let (damaged, format) = (image.clone(), self.store.format);
        let command = CommandFields {
            format,
            act: 5,
            mode: 1,
            pair: Pair::new(1 << 16, 0),
            ..CommandFields::default()
        };
        let (command, mut reply) = (command.to_bytes(), [0xa5; 16]);
        let answer = self
            .library
            .answer_in(format, &mut image, &command, &mut reply);
        self.tally.number(Operation::store(format), answer.number);
        self.tally.fault(Fault::DamagedImage);
        let number = match format {
            Format::V1 => Check::Number,
            Format::V2 => Check::Number2,
        };
        let made = &mut self.tally.made;
        made.same(Check::Sound, self.library.sound_in(format, &image), false)?;
        made.same(number, answer, NOT_SOUND)?;
        let same = image == damaged && reply == [0xa5; 16];
        made.hold(Check::RefusedStore, same, || {
            "9, and bytes are changed".into()
        })?;
        self.damaged_run(format, &command, &damaged)?;
        Ok(damaged)
    }

    /// A damaged copy of an image of version 2.
    fn damaged_image2(&mut self) -> Checked {
        let entry = 16 + 48 * self.card();
        let places = [0, 4, 10, entry + 18, entry + 27, entry + 44, entry + 47];
        self.damaged_copy(&places).map(|_| ())
    }

    /// A damaged copy of an image of version 1: 9 gets a recovery, too, that has
    /// something to write.
    fn damaged_image(&mut self) -> Checked {
        let entry = 16 + 32 * self.card();
        let places = [0, 4, 10, entry + 18, entry + 29];
        let damaged = self.damaged_copy(&places)?;
        let mut image = damaged.clone();
        let desk = self.random.index(self.desks.len());
        let desk = &self.desks[desk];
        let line = read(&desk.log).and_then(|read| {
            let due = crate::checks::log::due(&read.records);
            due.first().map(|due| due.line)
        });
        let recovered = self.library.recover(&desk.log, &mut image, &[], &[]);
        self.tally.number(Operation::Recover, recovered.0);
        let expected = line.map_or((0, 0), |line| (9, line));
        let made = &mut self.tally.made;
        made.same(Check::RecoveryNumber, recovered, expected)?;
        made.hold(Check::RefusedStore, image == damaged, || "9 again".into())
    }

    /// A copy of a queue that is bad: every request gets 10.
    fn damaged_queue(&mut self) -> Checked {
        let at = self.random.index(self.keepers.len());
        let mut queue = self.keepers[at].queue;
        match self.random.below(4) {
            0 => queue.places = self.random.pick(&[0, 33]),
            1 => queue.kept[0] = queue.places + 1,
            2 => queue.kept[1] = 1,
            _ => (queue.kept[0], queue.modes[0]) = (1, 7),
        }
        self.tally.fault(Fault::DamagedQueue);
        let turns = [
            Turn::Ask(2, Pair::new(0, u64::MAX)),
            Turn::Leave(1 << 16),
            Turn::Lapse(1 << 16, OVER),
        ];
        for turn in turns {
            let before = queue;
            let (operation, answer) = match turn {
                Turn::Ask(mode, pair) => (Operation::Ask, self.library.ask(&mut queue, mode, pair)),
                Turn::Leave(desk) => (Operation::Leave, self.library.leave(&mut queue, desk)),
                Turn::Lapse(desk, lease) => (
                    Operation::Lapse,
                    self.library.lapse(&mut queue, desk, lease),
                ),
            };
            self.tally.number(operation, answer.number);
            turned(&mut self.tally.made, &before, turn, &answer, &queue)?;
        }
        Ok(())
    }

    /// A copy of a log with a counted byte changed, or cut short: nothing can
    /// be appended to it or recovered from it.
    fn damaged_log(&mut self) -> Checked {
        let at = self.random.index(self.desks.len());
        let mut log = self.desks[at].log.clone();
        match log[0] {
            0 => log[0] = 201,
            _ => log[self.random.pick(&[1, 2, 6, 9])] ^= 0x10,
        }
        if self.one_in(4) {
            log.truncate(self.random.index(2_201));
        }
        self.tally.fault(Fault::DamagedLog);
        let number = self.library.check_log(&log);
        self.tally.number(Operation::LogCheck, number);
        let good = if read(&log).is_some() { 0 } else { 23 };
        self.tally.made.same(Check::LogGood, number, good)?;
        let before = log.clone();
        let body = [1, 0, 0, 0];
        let number = self.library.append(&mut log, COMMIT, &body, 99);
        self.tally.number(Operation::Append, number);
        let made = &mut self.tally.made;
        checked(made, &before, (COMMIT, &body, 99), number, &log)?;
        if good == 0 {
            return Ok(());
        }
        let recovered = self.library.recover(&log, &mut self.image, &[], &[]);
        self.tally.number(Operation::Recover, recovered.0);
        let made = &mut self.tally.made;
        made.same(Check::RecoveryNumber, recovered, (23, 0))?;
        let same = self.image == self.store.image;
        made.hold(Check::RefusedRecovery, same, || {
            "23, and bytes are changed".into()
        })
    }

    /// Proposals of desk 0, in no mode, and of a desk that has no stamp left.
    fn odd_proposal(&mut self) -> Checked {
        let end = u64::MAX << 32 | 9 << 16;
        let (desk, mode, known) = match self.random.below(3) {
            0 => (0, 1, [0; 2]),
            1 => (1, self.random.pick(&[0, 3, 255]), [0; 2]),
            _ => (1, self.random.pick(&[1, 2]), [end, end]),
        };
        let (number, pair) = (0, [5, 6]);
        let before = Proposal {
            number,
            known,
            pair,
        };
        let mut after = before;
        let (known, pair) = (&mut after.known, &mut after.pair);
        after.number = self.library.propose((desk, 3), known, mode, pair);
        self.tally.number(Operation::Propose, after.number);
        proposed(&mut self.tally.made, (desk, 3), mode, before, after)
    }

    /// A length beyond its buffer, and a language that is none.
    fn odd_shown(&mut self) -> Checked {
        let held = Held {
            buffers: [vec![7; 3], vec![8; 4]],
            lengths: [self.random.below(5), self.random.below(6)],
            edition: self.random.below(3) as u16,
            from: self.random.below(3) as u16,
        };
        let asked = self.random.pick(&[0, 1, 2]);
        let answer = self.library.shown(&held, asked);
        self.tally.number(Operation::Shown, answer.0);
        shown(&mut self.tally.made, &held, asked, answer)
    }

    /// An image that cannot be made: 14, and nothing is written.
    fn odd_image(&mut self) -> Checked {
        let (cards, room, length) = self.random.pick(&[(0, 16, 16), (1, 15, 78), (1, 16, 81)]);
        let mut image = vec![0xee; length];
        let number = self.library.make(&mut image, cards, room);
        self.tally.number(Operation::Make, number);
        let made = &mut self.tally.made;
        made.same(Check::Made, (number, image), (14, vec![0xee; length]))
    }

    /// The first desk writes the original of card 0 once more.
    pub(super) fn wear(&mut self) -> Checked {
        self.tally.step(Step::Send);
        let pair = match self.desks[0].at[0].open[1] {
            Some(pair) => pair,
            None => self.propose(0, 0, 2)?.unwrap_or_default(),
        };
        let command = CommandFields {
            act: 3,
            mode: 2,
            pair,
            ..CommandFields::default()
        };
        self.judge(&command.with_payload(b"205 C"), 0).map(|_| ())
    }
}
