//! Stores of either version, a conversion in mid-course, and desks that have not
//! heard of it, or heard of it too early.

use second::random::Random;
use second::{CommandFields, Format};
use story::Scene;

use super::Town;
use crate::checks::versions::{conversion_number, exists, fresh, size, MOST};
use crate::checks::{Check, Checked};
use crate::library::Library;
use crate::scenes;
use crate::tally::{Fault, Operation, Step};

/// Which versions a town sees.
#[derive(Clone, Copy, Debug, PartialEq, Eq)]
pub enum Versions {
    /// Version 1 throughout.
    One,
    /// Version 2 from the opening on.
    Two,
    /// Version 1, and in this step a conversion.
    Converts(u64),
}

impl Versions {
    /// Any of them, for a town of so many steps.
    pub fn any(random: &mut Random, steps: u64) -> Versions {
        match random.below(5) {
            0..=1 => Versions::One,
            2 => Versions::Two,
            _ => Versions::Converts(random.between(steps / 20, steps / 2)),
        }
    }

    /// The version at the opening.
    pub fn opening(self) -> Format {
        match self {
            Versions::Two => Format::V2,
            _ => Format::V1,
        }
    }

    /// Whether there is a conversion.
    pub fn converts(self) -> bool {
        matches!(self, Versions::Converts(_))
    }
}

impl<L: Library> Town<'_, L> {
    /// The store is converted, whoever is at work on it, or is too large for
    /// that (rules 15.9 and 15.10).
    pub(super) fn convert(&mut self) -> Checked {
        self.tally.step(Step::Convert);
        self.hear()?;
        let (cards, room) = (self.shape.cards, self.shape.room);
        let lent = vec![0xee; size(Format::V2, cards, room)];
        let mut target = lent.clone();
        let number = self.library.convert(&self.image, &mut target);
        self.tally.number(Operation::Convert, number);
        let rules = conversion_number(cards, room, lent.len());
        if rules == 0 {
            self.store.convert();
        }
        let expected = [&lent, &self.store.image][usize::from(rules == 0)];
        let made = &mut self.tally.made;
        made.same(Check::Converted, number, rules)?;
        let at = target.iter().zip(expected).position(|(a, b)| a != b);
        made.hold(Check::Converted, at.is_none(), || {
            format!("what was lent differs at byte {at:?}")
        })?;
        if rules != 0 {
            self.tally.fault(Fault::TooLarge);
            return Ok(());
        }
        let sound = self.library.sound_v2(&target);
        self.tally.made.same(Check::Sound, sound, true)?;
        (self.image, self.history) = (target, None);
        self.tally
            .fault_if(self.image.len() == MOST, Fault::Largest);
        let (after, number) = (self.standings(), scenes::number(number));
        self.tell(|| Scene::Converted { number, after });
        Ok(())
    }

    /// The version as which a command is taken that comes to the store: mostly
    /// its own; now and then that of the store.
    pub(super) fn taken_as(&mut self, format: Format) -> Format {
        let store = self.store.format;
        if format == store {
            return format;
        }
        let misread = self.one_in(4);
        self.tally.fault(match (misread, format) {
            (true, _) => Fault::Misread,
            (_, Format::V1) => Fault::OldCommand,
            (_, Format::V2) => Fault::NewCommand,
        });
        if misread {
            store
        } else {
            format
        }
    }

    /// A desk hears that the store is converted, or is going to be.
    pub(super) fn hears_of_conversion(&mut self, at: usize) {
        self.takes_for(at, Format::V2);
    }

    /// A desk whose command was of the other version looks at the number at 4
    /// of the image (rule 15.13).
    pub(super) fn looks_at_version(&mut self, at: usize) {
        self.takes_for(at, self.store.format);
    }

    /// A desk takes the store to be of a version; what it holds of a translation
    /// may be of another language there.
    fn takes_for(&mut self, at: usize, version: Format) {
        let desk = &mut self.desks[at];
        if desk.version == version {
            return;
        }
        desk.version = version;
        for have in &mut desk.at {
            (have.held.from, have.held.lengths[1]) = (0, 0);
        }
        let (who, version) = (desk.who, version.version());
        self.tell(|| Scene::Said(format!("desk {who} takes the store for version {version}")));
    }

    /// A command in the version of its desk, with a language where it has one:
    /// mostly that of the desk, and language 0 where a log is written out.
    pub(super) fn in_version(&mut self, at: usize, fields: &mut CommandFields, logged: bool) {
        fields.format = self.desks[at].version;
        if fields.format == Format::V1 || logged || fields.act != 2 && fields.act != 4 {
            return;
        }
        fields.language = match self.random.below(4) {
            0 => self.random.below(4) as u8,
            1 => 0,
            _ => self.desks[at].language,
        };
    }

    /// A command of version 2 with a language that is none, with one where none
    /// may stand, or with something in the bytes that are zero.
    pub(super) fn malform_language(&mut self, bytes: &mut [u8]) {
        match self.random.below(3) {
            0 => bytes[20] = self.random.pick(&[4, 255]),
            1 => bytes[21 + self.random.index(15)] = 1,
            _ if bytes[0] == 2 || bytes[0] == 4 => bytes[20] = 5,
            _ => bytes[20] = 1,
        }
    }

    /// Conversions that are refused: of an image that is not a sound one of
    /// version 1, and into bytes that do not fit (rule 15.10).
    pub(super) fn odd_conversion(&mut self) -> Checked {
        let (cards, room) = (self.shape.cards, self.shape.room);
        let whole = size(Format::V2, cards, room);
        let (image, lent, number) = match self.random.below(4) {
            0 => (fresh(Format::V2, cards, room), whole, 9),
            1 => {
                let mut damaged = fresh(Format::V1, cards, room);
                damaged[self.random.pick(&[0, 4, 10, 34])] ^= 0x40;
                (damaged, whole, 9)
            }
            2 => {
                let large = size(Format::V2, 13, 1_024);
                let lent = self.random.pick(&[0, 65_536, large]);
                let number = conversion_number(13, 1_024, lent);
                (fresh(Format::V1, 13, 1_024), lent, number)
            }
            _ => {
                let lent = self.random.pick(&[0, whole - 1, whole + 1]);
                let number = conversion_number(cards, room, lent);
                (fresh(Format::V1, cards, room), lent, number)
            }
        };
        let mut target = vec![0xee; lent];
        let told = self.library.convert(&image, &mut target);
        self.tally.number(Operation::Convert, told);
        let made = &mut self.tally.made;
        made.same(Check::Converted, told, number)?;
        let kept = target.iter().all(|byte| *byte == 0xee);
        made.hold(Check::Converted, kept, || {
            format!("{told}, and bytes are written")
        })
    }

    /// An image of version 2 that cannot be made, or one at the limit.
    pub(super) fn odd_image2(&mut self) -> Checked {
        let (cards, room, length) = self.random.pick(&[
            (0, 16, 16),
            (1, 15, 139),
            (1, 16, 145),
            (13, 1_024, 67_200),
            (32, 400, 65_552),
            (15, 864, 65_536),
            (65, 192, 65_536),
        ]);
        let right = exists(Format::V2, cards, room);
        let right = right && length == size(Format::V2, cards as usize, room as usize);
        let mut image = vec![0xee; length];
        let number = self.library.make_v2(&mut image, cards, room);
        self.tally.number(Operation::Make2, number);
        let rules = match right {
            true => (0, fresh(Format::V2, cards as usize, room as usize)),
            false => (14, vec![0xee; length]),
        };
        let same = (number, image) == rules;
        self.tally.made.hold(Check::Made, same, || {
            format!("{cards} cards with room {room} in {length} bytes: {number}")
        })
    }
}
