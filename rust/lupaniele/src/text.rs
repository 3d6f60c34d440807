use std::fmt;

use crate::bytes::{slice_at, u8_at, u16_at};
use crate::{Number, raw};

/// How deep sections stand within one another at most, the outermost counted (rule 12.4).
///
/// ```
/// use lupaniele::{DEEPEST, Step, Text};
/// let deep = |sections| (1..sections).fold(Text::default(), |text, _| Text::new([Step::Section(text)]));
/// assert!(deep(DEEPEST).to_bytes().is_ok() && deep(DEEPEST + 1).to_bytes().is_err());
/// ```
pub const DEEPEST: usize = 8;

/// Drops are near that differ by at most so many hundredths of a degree Fahrenheit, but for some that differ by exactly
/// as many, which rounding refuses (rule 12.7).
///
/// ```
/// use lupaniele::{NEAR, Step, Text, Unit, agree};
/// let alone = |tenths| Text::new([Step::drop(tenths, Unit::Fahrenheit)]).to_bytes();
/// let near = |first, second| Ok::<_, lupaniele::TextError>(agree(&alone(first)?, &alone(second)?).is_ok());
/// assert!(near(4_010, 4_015)? && !near(4_010, 4_016)?);
/// assert!(!near(6, 11)?); // which rounding refuses
/// # assert_eq!(NEAR, 50);
/// # Ok::<(), lupaniele::TextError>(())
/// ```
pub const NEAR: u64 = 50;

/// The unit of a drop (rule 12.3).
///
/// ```
/// assert_eq!(lupaniele::Unit::Celsius.to_string(), "C");
/// ```
#[derive(Clone, Copy, Debug, PartialEq, Eq, PartialOrd, Ord, Hash)]
pub enum Unit {
    /// Degrees Celsius.
    Celsius = 67,
    /// Degrees Fahrenheit.
    Fahrenheit = 70,
}

impl fmt::Display for Unit {
    fn fmt(&self, to: &mut fmt::Formatter) -> fmt::Result {
        to.pad(match self {
            Unit::Celsius => "C",
            Unit::Fahrenheit => "F",
        })
    }
}

/// A step of a text (rule 12.3).
///
/// ```
/// use lupaniele::{Step, Unit};
/// assert_eq!(Step::drop(2_050, Unit::Celsius).to_string(), "205.0 C");
/// assert_eq!(Step::words("Charge").to_string(), "Charge");
/// ```
#[derive(Clone, Debug, PartialEq, Eq, Hash)]
pub enum Step {
    /// Words: any bytes, at most 255.
    Words(Vec<u8>),
    /// A temperature to drop at, in tenths of a degree.
    Drop {
        /// The tenths of a degree.
        tenths: u16,
        /// The unit.
        unit: Unit,
    },
    /// A section of steps of its own.
    Section(Text),
}

impl Step {
    /// A step of words.
    ///
    /// ```
    /// use lupaniele::Step;
    /// assert_eq!(Step::words("Drop"), Step::Words(b"Drop".to_vec()));
    /// ```
    #[must_use]
    pub fn words(words: impl AsRef<[u8]>) -> Step {
        Step::Words(words.as_ref().to_vec())
    }

    /// A drop.
    ///
    /// ```
    /// use lupaniele::{Step, Unit};
    /// assert_eq!(Step::drop(4_010, Unit::Fahrenheit).to_string(), "401.0 F");
    /// ```
    #[must_use]
    pub fn drop(tenths: u16, unit: Unit) -> Step {
        Step::Drop { tenths, unit }
    }

    /// By how much two drops differ, to the hundredth of a degree: in Fahrenheit and in Celsius, without the rounding of
    /// rule 12.6; nothing where one of them is another step.
    ///
    /// ```
    /// use lupaniele::{Step, Unit};
    /// let (first, second) = (Step::drop(2_050, Unit::Celsius), Step::drop(4_020, Unit::Fahrenheit));
    /// assert_eq!(first.apart(&second), Some((100, 56))); // 1.00 F, 0.56 C
    /// assert_eq!(first.apart(&Step::words("Drop")), None);
    /// ```
    #[must_use]
    pub fn apart(&self, other: &Step) -> Option<(u64, u64)> {
        let fiftieths = |step: &Step| match step {
            Step::Drop { tenths, unit } => Some(match unit {
                Unit::Celsius => i64::from(*tenths) * 9 + 32 * 50,
                Unit::Fahrenheit => i64::from(*tenths) * 5,
            }),
            _ => None,
        };
        let apart = (fiftieths(self)? - fiftieths(other)?).unsigned_abs();
        Some((apart * 2, (apart * 10 + 4) / 9))
    }

    /// How many bytes it takes, where it can be written.
    fn length(&self) -> usize {
        match self {
            Step::Words(words) => 2 + words.len(),
            Step::Drop { .. } => 4,
            Step::Section(text) => 1 + text.length(),
        }
    }
}

impl fmt::Display for Step {
    fn fmt(&self, to: &mut fmt::Formatter) -> fmt::Result {
        match self {
            Step::Words(words) => write!(to, "{}", String::from_utf8_lossy(words)),
            Step::Drop { tenths, unit } => write!(to, "{}.{} {unit}", tenths / 10, tenths % 10),
            Step::Section(text) => write!(to, "a section of {} steps", text.steps.len()),
        }
    }
}

/// A structured text as a tree: one section of steps (section 12 of the rules).
///
/// ```
/// use lupaniele::{Disagreement, Step, Text, Unit, agree};
///
/// let card = Text::new([
///     Step::words("Charge"),
///     Step::drop(1_900, Unit::Celsius),
///     Step::Section(Text::new([Step::words("Drop"), Step::drop(2_050, Unit::Celsius)])),
/// ]);
/// let bytes = card.to_bytes()?;
/// assert_eq!(Text::read(&bytes)?, card);
///
/// let mut translation = card.clone();
/// translation.steps[1] = Step::drop(3_740, Unit::Fahrenheit);
/// assert_eq!(agree(&bytes, &translation.to_bytes()?), Ok(()));
/// translation.steps[1] = Step::drop(3_750, Unit::Fahrenheit);
/// let parted = agree(&bytes, &translation.to_bytes()?);
/// assert_eq!(parted, Err(Disagreement::Parted { place: 10 }));
/// let (path, step) = card.step_at(10).ok_or("no step")?;
/// assert_eq!((path, step.to_string()), (vec![2], "190.0 C".to_string()));
/// # Ok::<(), Box<dyn std::error::Error>>(())
/// ```
#[derive(Clone, Debug, Default, PartialEq, Eq, Hash)]
pub struct Text {
    /// Its steps, at most 255.
    pub steps: Vec<Step>,
}

impl Text {
    /// The text of these steps.
    ///
    /// ```
    /// use lupaniele::{Step, Text};
    /// assert_eq!(Text::new([Step::words("Drop")]).steps.len(), 1);
    /// ```
    #[must_use]
    pub fn new(steps: impl IntoIterator<Item = Step>) -> Text {
        Text {
            steps: steps.into_iter().collect(),
        }
    }

    /// The text in some bytes.
    ///
    /// # Errors
    ///
    /// [`Number::FirstIll`] where they are ill formed (rule 12.1).
    ///
    /// ```
    /// use lupaniele::{Number, Text};
    /// assert_eq!(Text::read(&[1, 0]), Ok(Text::default()));
    /// assert_eq!(Text::read(b"205"), Err(Number::FirstIll));
    /// ```
    pub fn read(bytes: &[u8]) -> Result<Text, Number> {
        // A text agrees with itself, unless it is ill formed.
        Number::given(raw::agree(bytes, bytes, &mut 0)).done()?;
        let (text, _) = section_at(bytes, 0, DEEPEST).ok_or(Number::FirstIll)?;
        Ok(text)
    }

    /// Its bytes.
    ///
    /// # Errors
    ///
    /// Where it cannot be written: too many steps, words too long, sections too deep.
    ///
    /// ```
    /// use lupaniele::{Step, Text, TextError};
    /// let long = Text::new([Step::words([b'a'; 256])]);
    /// assert_eq!(long.to_bytes(), Err(TextError::WordsTooLong { length: 256 }));
    /// ```
    pub fn to_bytes(&self) -> Result<Vec<u8>, TextError> {
        let mut bytes = Vec::new();
        self.append_to(&mut bytes, DEEPEST)?;
        Ok(bytes)
    }

    fn append_to(&self, bytes: &mut Vec<u8>, depth: usize) -> Result<(), TextError> {
        let depth = depth.checked_sub(1).ok_or(TextError::TooDeep)?;
        let count = self.steps.len();
        let Ok(steps) = u8::try_from(count) else {
            return Err(TextError::TooManySteps { count });
        };
        bytes.extend([1, steps]);
        for step in &self.steps {
            match step {
                Step::Words(words) => {
                    let length = words.len();
                    let Ok(short) = u8::try_from(length) else {
                        return Err(TextError::WordsTooLong { length });
                    };
                    bytes.extend([2, short]);
                    bytes.extend(words);
                }
                Step::Drop { tenths, unit } => {
                    bytes.extend([3, *unit as u8]);
                    bytes.extend(tenths.to_le_bytes());
                }
                Step::Section(text) => {
                    bytes.push(4);
                    text.append_to(bytes, depth)?;
                }
            }
        }
        Ok(())
    }

    fn length(&self) -> usize {
        2 + self.steps.iter().map(Step::length).sum::<usize>()
    }

    /// The step that begins at a byte of the text: its path, counted from 1 in each section, and the step. None begins
    /// at the end of the text, nor within a step.
    ///
    /// ```
    /// use lupaniele::{Step, Text};
    /// let inner = Text::new([Step::words("Drop")]);
    /// let text = Text::new([Step::words("Charge"), Step::Section(inner)]);
    /// assert_eq!(text.step_at(13).map(|(path, _)| path), Some(vec![2, 1]));
    /// ```
    #[must_use]
    pub fn step_at(&self, place: usize) -> Option<(Vec<usize>, &Step)> {
        let (mut path, mut section, mut at) = (Vec::new(), self, 2);
        loop {
            let mut inside = None;
            for (count, step) in section.steps.iter().enumerate() {
                if at == place {
                    path.push(count + 1);
                    return Some((path, step));
                }
                let end = at + step.length();
                if let (Step::Section(text), true) = (step, place < end) {
                    inside = Some((count + 1, text));
                    break;
                }
                at = end;
            }
            let (count, text) = inside?;
            path.push(count);
            (section, at) = (text, at + 3);
        }
    }

    fn write_lines(&self, to: &mut fmt::Formatter, path: &str, depth: usize) -> fmt::Result {
        for (count, step) in self.steps.iter().enumerate() {
            let path = format!("{path}{}", count + 1);
            writeln!(to, "{path} {step}")?;
            match step {
                Step::Section(text) if depth > 1 => {
                    text.write_lines(to, &format!("{path}."), depth - 1)?;
                }
                _ => {}
            }
        }
        Ok(())
    }
}

/// Step by step, a line each, with its path in front.
impl fmt::Display for Text {
    fn fmt(&self, to: &mut fmt::Formatter) -> fmt::Result {
        self.write_lines(to, "", DEEPEST)
    }
}

/// The section that begins at a byte, and the byte behind it.
fn section_at(bytes: &[u8], at: usize, depth: usize) -> Option<(Text, usize)> {
    let depth = depth.checked_sub(1)?;
    let (steps, mut at) = (usize::from(u8_at(bytes, at + 1)), at + 2);
    let mut text = Text::default();
    for _ in 0..steps {
        let (step, end) = step_from(bytes, at, depth)?;
        text.steps.push(step);
        at = end;
    }
    Some((text, at))
}

/// The step that begins at a byte, and the byte behind it.
fn step_from(bytes: &[u8], at: usize, depth: usize) -> Option<(Step, usize)> {
    match u8_at(bytes, at) {
        2 => {
            let length = usize::from(u8_at(bytes, at + 1));
            let words = Step::words(slice_at(bytes, at + 2, length));
            Some((words, at + 2 + length))
        }
        3 => {
            let unit = match u8_at(bytes, at + 1) {
                67 => Unit::Celsius,
                _ => Unit::Fahrenheit,
            };
            Some((Step::drop(u16_at(bytes, at + 2), unit), at + 4))
        }
        _ => {
            let (text, end) = section_at(bytes, at + 1, depth)?;
            Some((Step::Section(text), end))
        }
    }
}

/// Whether two structured texts, in bytes, say the same drops (rules 12.8 and 12.9).
///
/// # Errors
///
/// Why they do not.
///
/// ```
/// use lupaniele::{Disagreement, agree};
/// assert_eq!(agree(&[1, 0], b"?"), Err(Disagreement::SecondIll));
/// ```
pub fn agree(first: &[u8], second: &[u8]) -> Result<(), Disagreement> {
    let mut place = 0;
    let number = Number::given(raw::agree(first, second, &mut place));
    match number.done() {
        Ok(()) => Ok(()),
        Err(Number::FirstIll) => Err(Disagreement::FirstIll),
        Err(Number::SecondIll) => Err(Disagreement::SecondIll),
        Err(_) => Err(Disagreement::Parted {
            place: place as usize,
        }),
    }
}

/// Why two texts do not agree (rules 12.9 and 12.10).
///
/// ```
/// let parted = lupaniele::Disagreement::Parted { place: 23 };
/// assert_eq!(parted.number(), lupaniele::Number::Unmatched);
/// assert_eq!(parted.to_string(), "the texts differ from byte 23 of the first on");
/// ```
#[derive(Clone, Copy, Debug, PartialEq, Eq)]
pub enum Disagreement {
    /// The first text is ill formed.
    FirstIll,
    /// The second text is ill formed.
    SecondIll,
    /// They part.
    Parted {
        /// The byte of the first text where its first step without a match begins, or just past the section in which
        /// the second has a step more.
        place: usize,
    },
}

impl Disagreement {
    /// Its number.
    ///
    /// ```
    /// use lupaniele::{Disagreement, Number};
    /// assert_eq!(Disagreement::SecondIll.number(), Number::SecondIll);
    /// ```
    #[must_use]
    pub fn number(self) -> Number {
        match self {
            Disagreement::FirstIll => Number::FirstIll,
            Disagreement::SecondIll => Number::SecondIll,
            Disagreement::Parted { .. } => Number::Unmatched,
        }
    }
}

impl fmt::Display for Disagreement {
    fn fmt(&self, to: &mut fmt::Formatter) -> fmt::Result {
        match self {
            Disagreement::Parted { place } => {
                write!(to, "the texts differ from byte {place} of the first on")
            }
            ill => fmt::Display::fmt(&ill.number(), to),
        }
    }
}

impl std::error::Error for Disagreement {}

/// Why a text has no bytes.
///
/// ```
/// use lupaniele::{Step, Text, TextError};
/// let nine = (0..8).fold(Text::default(), |text, _| Text::new([Step::Section(text)]));
/// assert_eq!(nine.to_bytes(), Err(TextError::TooDeep));
/// ```
#[derive(Clone, Copy, Debug, PartialEq, Eq)]
pub enum TextError {
    /// A section has more than 255 steps.
    TooManySteps {
        /// How many.
        count: usize,
    },
    /// A step has more than 255 bytes of words.
    WordsTooLong {
        /// How many.
        length: usize,
    },
    /// More than 8 sections stand within one another.
    TooDeep,
}

impl fmt::Display for TextError {
    fn fmt(&self, to: &mut fmt::Formatter) -> fmt::Result {
        match self {
            TextError::TooManySteps { count } => {
                write!(to, "a section of {count} steps: it has at most 255")
            }
            TextError::WordsTooLong { length } => {
                write!(to, "{length} bytes of words: a step has at most 255")
            }
            TextError::TooDeep => write!(to, "more than {DEEPEST} sections within one another"),
        }
    }
}

impl std::error::Error for TextError {}
