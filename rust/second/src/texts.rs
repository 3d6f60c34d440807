//! Structured texts: sections of words, drops and sections, and whether two of
//! them agree (rules 12.1 to 12.10).

use crate::number::{ACCEPTED, FIRST_ILL_FORMED, SECOND_ILL_FORMED, TEXTS_DIFFER};

/// How many sections may stand within one another (rule 12.4).
pub const DEEPEST: usize = 8;

/// How far apart near drops may be, in degrees Fahrenheit (rule 12.7).
const TOLERANCE: f64 = 0.5;

/// A drop, in degrees of its own unit.
#[derive(Clone, Copy, Debug, PartialEq)]
pub enum Drop {
    /// Degrees Celsius.
    Celsius(f64),
    /// Degrees Fahrenheit.
    Fahrenheit(f64),
}

/// What a step is.
#[derive(Clone, Debug, PartialEq)]
pub enum Content {
    /// Words; which ones is never compared.
    Words,
    /// A drop.
    Drop(Drop),
    /// A section.
    Section(Section),
}

/// A step and the byte of the text where it begins.
#[derive(Clone, Debug, PartialEq)]
pub struct Step {
    /// The place of its first byte.
    pub begins: usize,
    /// What it is.
    pub content: Content,
}

/// A section: its steps, and the place just past it.
#[derive(Clone, Debug, PartialEq)]
pub struct Section {
    /// The steps in order.
    pub steps: Vec<Step>,
    /// The place just past the last of them.
    pub past: usize,
}

/// A text as read, or none if it is ill formed.
pub fn read(text: &[u8]) -> Option<Section> {
    let mut bytes = Bytes { text, at: 0 };
    let section = bytes.section(DEEPEST)?;
    (bytes.at == text.len()).then_some(section)
}

/// What comparing two texts answers: 0, 18, 19 or 20 (rule 12.9), and with 20
/// the place where they part (rule 12.10), else 0.
pub fn agree(first: &[u8], second: &[u8]) -> (u8, u64) {
    let Some(first) = read(first) else {
        return (FIRST_ILL_FORMED, 0);
    };
    let Some(second) = read(second) else {
        return (SECOND_ILL_FORMED, 0);
    };
    match unmatched(&first, &second) {
        None => (ACCEPTED, 0),
        Some(unmatched) => (TEXTS_DIFFER, unmatched.place as u64),
    }
}

/// Why two texts part.
#[derive(Clone, Copy, Debug, PartialEq, Eq)]
pub enum Why {
    /// Two steps of different kinds, by their first bytes.
    Kinds(u8, u8),
    /// Two drops that are too far apart.
    Far,
    /// The section of the first text has a step more.
    FirstHasMore,
    /// The section of the second text has a step more.
    SecondHasMore,
}

/// Where two texts part.
#[derive(Clone, Copy, Debug, PartialEq, Eq)]
pub struct Unmatched {
    /// The place in the first text.
    pub place: usize,
    /// How many sections stand around it.
    pub depth: usize,
    /// Why.
    pub why: Why,
}

/// Where two sections part, if they do (rule 12.10).
pub fn unmatched(first: &Section, second: &Section) -> Option<Unmatched> {
    unmatched_at(first, second, 1)
}

fn unmatched_at(first: &Section, second: &Section, depth: usize) -> Option<Unmatched> {
    let parted = |place, why| Some(Unmatched { place, depth, why });
    let mut others = second.steps.iter();
    for step in &first.steps {
        let begins = step.begins;
        let Some(other) = others.next() else {
            return parted(begins, Why::FirstHasMore);
        };
        let found = match (&step.content, &other.content) {
            (Content::Words, Content::Words) => None,
            (Content::Drop(one), Content::Drop(two)) if one.is_near(*two) => None,
            (Content::Drop(_), Content::Drop(_)) => parted(begins, Why::Far),
            (Content::Section(inner), Content::Section(other)) => {
                unmatched_at(inner, other, depth.saturating_add(1))
            }
            (one, two) => parted(begins, Why::Kinds(one.kind(), two.kind())),
        };
        if found.is_some() {
            return found;
        }
    }
    match others.next() {
        Some(_) => parted(first.past, Why::SecondHasMore),
        None => None,
    }
}

impl Content {
    /// The first byte of such a step.
    pub fn kind(&self) -> u8 {
        match self {
            Content::Words => 2,
            Content::Drop(_) => 3,
            Content::Section(_) => 4,
        }
    }
}

impl Drop {
    /// Tenths of a degree in a unit, 67 or 70; no other unit is one.
    pub fn new(unit: u8, tenths: u16) -> Option<Drop> {
        let degrees = f64::from(tenths) / 10.0;
        match unit {
            b'C' => Some(Drop::Celsius(degrees)),
            b'F' => Some(Drop::Fahrenheit(degrees)),
            _ => None,
        }
    }

    /// The same in degrees Fahrenheit (rule 12.6).
    pub fn fahrenheit(self) -> f64 {
        match self {
            Drop::Celsius(degrees) => degrees * 9.0 / 5.0 + 32.0,
            Drop::Fahrenheit(degrees) => degrees,
        }
    }

    /// Whether two drops are near (rule 12.7).
    pub fn is_near(self, other: Drop) -> bool {
        (self.fahrenheit() - other.fahrenheit()).abs() <= TOLERANCE
    }
}

/// A text that is being read, and the place of the next byte.
struct Bytes<'a> {
    text: &'a [u8],
    at: usize,
}

impl Bytes<'_> {
    fn byte(&mut self) -> Option<u8> {
        let byte = self.text.get(self.at).copied()?;
        self.at = self.at.saturating_add(1);
        Some(byte)
    }

    fn section(&mut self, depth: usize) -> Option<Section> {
        let inner = depth.checked_sub(1)?;
        if self.byte()? != 1 {
            return None;
        }
        let count = self.byte()?;
        let steps: Option<Vec<Step>> = (0..count).map(|_| self.step(inner)).collect();
        Some(Section {
            steps: steps?,
            past: self.at,
        })
    }

    fn step(&mut self, depth: usize) -> Option<Step> {
        let begins = self.at;
        let content = match self.byte()? {
            2 => self.words()?,
            3 => {
                let unit = self.byte()?;
                let tenths = u16::from_le_bytes([self.byte()?, self.byte()?]);
                Content::Drop(Drop::new(unit, tenths)?)
            }
            4 => Content::Section(self.section(depth)?),
            _ => return None,
        };
        Some(Step { begins, content })
    }

    fn words(&mut self) -> Option<Content> {
        let length = usize::from(self.byte()?);
        let past = self.at.checked_add(length)?;
        self.text.get(self.at..past)?;
        self.at = past;
        Some(Content::Words)
    }
}
