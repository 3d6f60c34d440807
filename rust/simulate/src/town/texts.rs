//! Structured texts (section 12): desks write them, change a drop, translate
//! them into the other unit, and compare what they hold.

use second::random::Random;
use second::{CommandFields, Format};

use super::Town;
use crate::checks::formed::formed_as;
use crate::checks::texts::{checked, compared, drops};
use crate::checks::{Check, Checked};
use crate::library::{Answer, Library};
use crate::tally::{Fault, Operation, Step};

/// Drops that are exactly half a degree apart, by rule 12.7's table.
const HALVES: &[(u8, u16)] = &[
    (b'C', 180),
    (b'F', 639),
    (b'C', 2_050),
    (b'F', 4_015),
    (b'F', 4_005),
    (b'F', 6),
    (b'F', 11),
];

/// A drop.
fn drop_step(unit: u8, tenths: u16) -> [u8; 4] {
    let [low, high] = tenths.to_le_bytes();
    [3, unit, low, high]
}

fn any_drop(random: &mut Random) -> [u8; 4] {
    let at = random.index(HALVES.len());
    let (unit, tenths) = match random.below(5) {
        0 => HALVES[at],
        1 => (b'F', random.between(3_560, 4_640) as u16),
        2 => (random.pick(b"CF"), random.number() as u16),
        _ => (b'C', random.between(1_800, 2_400) as u16),
    };
    drop_step(unit, tenths)
}

/// Writes a section of some steps behind a text, of so many bytes at the most.
fn section(random: &mut Random, text: &mut Vec<u8>, room: usize, deep: usize) {
    let count = text.len() + 1;
    text.extend([1, 0]);
    while text[count] < 7 && !random.one_in(5) {
        let left = room.saturating_sub(text.len());
        match random.below(4) {
            0 if left >= 8 => {
                let length = random.index(7);
                text.extend([2, length as u8]);
                text.extend(random.bytes(length));
            }
            1 if left >= 3 && deep < 10 => {
                text.push(4);
                section(random, text, room, deep + 1);
            }
            _ if left >= 4 => text.extend(any_drop(random)),
            _ => break,
        }
        text[count] += 1;
    }
}

/// Sections within one another, so many of them.
fn nested(levels: usize) -> Vec<u8> {
    let mut text = vec![1];
    (1..levels).for_each(|_| text.extend([1, 4, 1]));
    text.push(0);
    text
}

/// The same drop in the other unit, to the nearest tenth, where there is one.
fn other_unit(unit: u8, tenths: u16) -> (u8, u16) {
    let t = i64::from(tenths);
    let (other, there) = match unit {
        b'C' => (b'F', (t * 18 + 3_205) / 10),
        _ => (b'C', ((t - 320) * 50 + 45).div_euclid(90)),
    };
    u16::try_from(there).map_or((unit, tenths), |there| (other, there))
}

/// A drop as a translation has it: in the other unit; now and then as it was.
fn translated_drop(random: &mut Random, step: &[u8]) -> [u8; 4] {
    let (unit, tenths) = (step[1], u16::from_le_bytes([step[2], step[3]]));
    let (unit, tenths) = match random.one_in(10) {
        true => (unit, tenths),
        false => other_unit(unit, tenths),
    };
    drop_step(unit, tenths)
}

/// Writes the section at a place in other words, that are no longer, and in the
/// other unit. Where it is loose, a step is left out now and then, or one is
/// added. The place behind the section.
fn retold(random: &mut Random, text: &[u8], at: usize, out: &mut Vec<u8>, loose: bool) -> usize {
    let count = out.len() + 1;
    out.extend([1, 0]);
    let mut end = at + 2;
    for _ in 0..text[at + 1] {
        let (step, begin) = (&text[end..], out.len());
        out[count] += 1;
        end += match step[0] {
            2 => {
                let length = random.index(usize::from(step[1]) + 1);
                out.extend([2, length as u8]);
                out.extend(random.bytes(length));
                2 + usize::from(step[1])
            }
            3 => {
                out.extend(translated_drop(random, step));
                4
            }
            _ => {
                out.push(4);
                retold(random, text, end + 1, out, loose) - end
            }
        };
        if loose && random.one_in(16) {
            out.truncate(begin);
            out[count] -= 1;
        }
    }
    if loose && random.one_in(8) && out[count] < 255 {
        out.extend([2, 0]);
        out[count] += 1;
    }
    end
}

/// A structured text in other words and in the other unit; any other text as it
/// is.
fn translated(random: &mut Random, text: &[u8], loose: bool) -> Vec<u8> {
    if compared(text, text) != (0, 0) {
        return text.to_vec();
    }
    let mut out = Vec::new();
    retold(random, text, 0, &mut out, loose);
    out
}

/// A translation in which some drops are half a degree off, or about that.
fn roughly(random: &mut Random, mut text: Vec<u8>) -> Vec<u8> {
    for at in drops(&text) {
        if random.one_in(6) {
            let off = random.pick(&[5, 4, 6, 3, -5, -4, -6, -3]);
            let tenths = u16::from_le_bytes([text[at + 2], text[at + 3]]);
            let step = drop_step(text[at + 1], tenths.saturating_add_signed(off));
            text[at..at + 4].copy_from_slice(&step);
        }
    }
    text
}

/// A text with one drop changed.
fn changed(random: &mut Random, text: &[u8]) -> Vec<u8> {
    let mut other = text.to_vec();
    let places = drops(text);
    if let Some(at) = places.get(random.index(places.len())) {
        other[*at..*at + 4].copy_from_slice(&any_drop(random));
    }
    other
}

/// A text with a byte changed, lost or added, or with a step more or less in its
/// count.
fn damaged(random: &mut Random, text: &mut Vec<u8>) {
    let at = random.index(text.len());
    match random.below(4) {
        0 if !text.is_empty() => text[at] ^= 1 << random.below(8),
        1 => text.truncate(at),
        2 if text.len() > 1 => {
            text[1] = text[1].wrapping_add(1);
            text.extend([2, 0]);
        }
        _ => text.push(random.byte()),
    }
}

impl<L: Library> Town<'_, L> {
    /// A structured text that fits a card.
    pub(super) fn structured(&mut self) -> Vec<u8> {
        let room = self.shape.room.min(200);
        if room >= 26 && self.one_in(12) {
            return nested(self.random.between(7, 9) as usize);
        }
        let mut text = Vec::new();
        section(&mut self.random, &mut text, room, 1);
        text
    }

    /// The text of a command: of an original a new one, or the one that the desk
    /// holds with a drop changed; of a translation mostly the original that the
    /// desk holds, in the other unit.
    pub(super) fn text_of(&mut self, at: usize, card: usize, fields: &CommandFields) -> Vec<u8> {
        let held = self.held(at, card)[0].to_vec();
        let known = !drops(&held).is_empty() && !self.one_in(4);
        match fields.act {
            3 if known && self.one_in(2) => changed(&mut self.random, &held),
            4 if known => {
                let loose = self.one_in(4);
                let text = translated(&mut self.random, &held, loose);
                if loose {
                    return roughly(&mut self.random, text);
                }
                if usize::from(fields.card) == card && self.desks[at].at[card].read > 0 {
                    self.careful
                        .insert((fields.card, fields.edition, text.clone()));
                }
                text
            }
            3 | 4 => self.some_text(),
            _ => Vec::new(),
        }
    }

    /// If a translation is written or read that a desk made with care, from the
    /// edition that it named, it says the drops of the original that stands.
    pub(super) fn current_drops(
        &mut self,
        format: Format,
        command: &[u8],
        answer: &Answer,
    ) -> Checked {
        let accepted = (answer.number == 0).then_some(command);
        let Some(sent) = accepted.and_then(|command| formed_as(format, command)) else {
            return Ok(());
        };
        let text = match sent.act {
            2 => self.reply[..answer.fields[6] as usize].to_vec(),
            4 => sent.payload.to_vec(),
            _ => return Ok(()),
        };
        let translation = (sent.card, answer.fields[5] as u16, text);
        if !self.careful.contains(&translation) {
            return Ok(());
        }
        let (card, _, text) = translation;
        let original = &self.store.cards[usize::from(card)].texts[0];
        let told = self.library.agree(original, &text);
        self.tally.number(Operation::Agree, told.0);
        let made = &mut self.tally.made;
        made.same(Check::SameDrops, told, (0, 0))?;
        made.same(Check::SameDrops, compared(original, &text), (0, 0))
    }

    /// The original and the translation that a desk holds.
    fn held(&self, at: usize, card: usize) -> [&[u8]; 2] {
        let held = &self.desks[at].at[card].held;
        [0, 1].map(|text| &held.buffers[text][..held.lengths[text] as usize])
    }

    /// A desk compares the original that it holds with the translation that it
    /// holds, or with one that it is about to send.
    pub(super) fn compare(&mut self, at: usize, card: usize) -> Checked {
        self.tally.step(Step::Compare);
        let [mut first, mut second] = self.held(at, card).map(<[u8]>::to_vec);
        if drops(&first).is_empty() && self.one_in(2) {
            first = self.structured();
        }
        if second.is_empty() || self.one_in(2) {
            let loose = self.one_in(3);
            second = translated(&mut self.random, &first, loose);
            second = roughly(&mut self.random, second);
        }
        if self.one_in(4) {
            let which = [&mut first, &mut second]
                .into_iter()
                .nth(self.random.index(2));
            which
                .into_iter()
                .for_each(|text| damaged(&mut self.random, text));
        }
        let told = [
            self.library.agree(&first, &second),
            self.library.agree(&second, &first),
        ];
        for (number, _) in told {
            self.tally.number(Operation::Agree, number);
        }
        let (places, others) = (drops(&first), drops(&second));
        let mut partners = places.iter().zip(&others);
        let one_drop = told[0].0 == 0 && partners.any(|(at, to)| first[at + 1] != second[to + 1]);
        self.tally.fault_if(one_drop, Fault::OneDrop);
        let parted = told[0].0 == 20 && places.contains(&(told[0].1 as usize));
        self.tally.fault_if(parted, Fault::Parted);
        checked(&mut self.tally.made, &first, &second, told)
    }
}
