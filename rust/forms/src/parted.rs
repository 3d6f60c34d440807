use lupaniele::{NEAR, Step, Text, agree};

use crate::step;

/// Where two structured texts part (rule 12.10), and how.
///
/// ```
/// use lupaniele::{Step, Text, Unit};
/// let text = |tenths, unit| Text::new([Step::words("Drop at"), Step::drop(tenths, unit)]);
/// let (first, second) = (text(2_050, Unit::Celsius), text(4_020, Unit::Fahrenheit));
/// let parted = forms::parted(&first, &second).unwrap();
/// assert_eq!(parted.path, [2]);
/// assert_eq!(parted.to_string(), "step 2: `drop 205.0 C` and `drop 402.0 F` are 1.00 F (0.56 C) apart, more than 0.50 F");
/// assert_eq!(forms::parted(&first, &text(4_010, Unit::Fahrenheit)), None);
/// ```
#[derive(Clone, Debug, PartialEq, Eq)]
pub struct Parted<'a> {
    /// The step, counted from 1 in each section.
    pub path: Vec<usize>,
    /// The step of the first text there, if it has one.
    pub first: Option<&'a Step>,
    /// The step of the second text there, if it has one.
    pub second: Option<&'a Step>,
}

/// The first step of two texts that has no match in the other; none where they agree. Which drops are near is for the
/// library to say.
#[must_use]
pub fn parted<'a>(first: &'a Text, second: &'a Text) -> Option<Parted<'a>> {
    let most = first.steps.len().max(second.steps.len());
    (0..most).find_map(|at| {
        let (mut inside, pair) = (None, (first.steps.get(at), second.steps.get(at)));
        let matched = match pair {
            (Some(Step::Section(first)), Some(Step::Section(second))) => {
                inside = parted(first, second);
                inside.is_none()
            }
            (Some(Step::Words(_)), Some(Step::Words(_))) => true,
            (Some(first @ Step::Drop { .. }), Some(second @ Step::Drop { .. })) => {
                near(first, second)
            }
            _ => false,
        };
        if matched {
            return None;
        }
        let (first, second) = pair;
        let mut parted = inside.unwrap_or(Parted {
            path: Vec::new(),
            first,
            second,
        });
        parted.path.insert(0, at + 1);
        Some(parted)
    })
}

/// Whether texts of one drop each agree.
fn near(first: &Step, second: &Step) -> bool {
    let alone = |step: &Step| Text::new([step.clone()]).to_bytes();
    match (alone(first), alone(second)) {
        (Ok(first), Ok(second)) => agree(&first, &second).is_ok(),
        _ => false,
    }
}

impl std::fmt::Display for Parted<'_> {
    fn fmt(&self, to: &mut std::fmt::Formatter) -> std::fmt::Result {
        let path: Vec<String> = self.path.iter().map(ToString::to_string).collect();
        write!(to, "step {}: ", path.join("."))?;
        match (self.first, self.second) {
            (Some(first), Some(second)) => {
                let both = format!("`{}` and `{}`", short(first), short(second));
                match apart(first, second) {
                    Some(apart) => write!(to, "{both} are {apart}"),
                    None => write!(to, "{both} are steps of two kinds"),
                }
            }
            (Some(first), None) => {
                write!(to, "the second text has no step like `{}`", short(first))
            }
            (None, Some(second)) => {
                write!(to, "the first text has no step like `{}`", short(second))
            }
            (None, None) => to.write_str("neither text has a step there"),
        }
    }
}

/// A step for a message: of a section its kind alone.
fn short(step: &Step) -> String {
    match step {
        Step::Section(_) => "section".into(),
        step => self::step(step),
    }
}

/// How far two drops are apart that are not near; nothing for other steps.
fn apart(first: &Step, second: &Step) -> Option<String> {
    let written = |hundredths: u64| format!("{}.{:02}", hundredths / 100, hundredths % 100);
    let (fahrenheit, celsius) = first.apart(second)?;
    let apart = format!("{} F ({} C) apart", written(fahrenheit), written(celsius));
    Some(match fahrenheit > NEAR {
        true => format!("{apart}, more than {} F", written(NEAR)),
        false => format!("{apart}, which rounding refuses (rule 12.7)"),
    })
}
