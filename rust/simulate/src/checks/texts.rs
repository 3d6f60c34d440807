//! Structured texts, as the rules read and compare them (rules 12.1 to 12.10).

use super::{Check, Checked, Made};

/// A step (rule 12.3); of a drop its degrees in Fahrenheit.
#[derive(Clone, Debug, PartialEq)]
enum Step {
    Words,
    Drop(f64),
    Section(Section),
}

/// A section: its steps, each with the place where it begins, and the place just
/// past it.
#[derive(Clone, Debug, PartialEq)]
struct Section {
    steps: Vec<(usize, Step)>,
    end: usize,
}

/// How many sections may stand within one another (rule 12.4).
const DEEP: usize = 8;

/// A drop in Fahrenheit, each operation rounded (rules 12.5 and 12.6).
fn fahrenheit(unit: u8, tenths: u16) -> f64 {
    let degrees = f64::from(tenths) / 10.0;
    match unit {
        b'C' => degrees * 9.0 / 5.0 + 32.0,
        _ => degrees,
    }
}

/// The section at a place, with so many around it (rule 12.2).
fn section(text: &[u8], at: usize, around: usize) -> Option<Section> {
    if around == DEEP || *text.get(at)? != 1 {
        return None;
    }
    let (mut steps, mut end) = (Vec::new(), at + 2);
    for _ in 0..*text.get(at + 1)? {
        let begin = end;
        let step = match text.get(begin)? {
            2 => {
                end = begin + 2 + usize::from(*text.get(begin + 1)?);
                Step::Words
            }
            3 => {
                end = begin + 4;
                let &[unit @ (b'C' | b'F'), low, high] = text.get(begin + 1..end)? else {
                    return None;
                };
                Step::Drop(fahrenheit(unit, u16::from_le_bytes([low, high])))
            }
            4 => {
                let inner = section(text, begin + 1, around + 1)?;
                end = inner.end;
                Step::Section(inner)
            }
            _ => return None,
        };
        steps.push((begin, step));
    }
    (end <= text.len()).then_some(Section { steps, end })
}

/// A text: one section, and nothing behind it (rule 12.1).
fn read(text: &[u8]) -> Option<Section> {
    section(text, 0, 0).filter(|section| section.end == text.len())
}

/// Where the drops of a text begin; none where it is ill formed.
pub fn drops(text: &[u8]) -> Vec<usize> {
    fn of(section: &Section) -> Vec<usize> {
        let places = section.steps.iter().map(|(at, step)| match step {
            Step::Words => Vec::new(),
            Step::Drop(_) => vec![*at],
            Step::Section(inner) => of(inner),
        });
        places.flatten().collect()
    }
    read(text).as_ref().map_or(Vec::new(), of)
}

/// Where the first step without a match begins (rules 12.7, 12.8 and 12.10).
fn parted(first: &Section, second: &Section) -> Option<usize> {
    for (nth, (at, step)) in first.steps.iter().enumerate() {
        let place = match (step, second.steps.get(nth).map(|partner| &partner.1)) {
            (Step::Words, Some(Step::Words)) => None,
            (Step::Drop(one), Some(Step::Drop(other))) => {
                let apart = one - other;
                (!(-0.5..=0.5).contains(&apart)).then_some(*at)
            }
            (Step::Section(one), Some(Step::Section(other))) => parted(one, other),
            _ => Some(*at),
        };
        if place.is_some() {
            return place;
        }
    }
    (second.steps.len() > first.steps.len()).then_some(first.end)
}

/// The number and the place (rules 12.9 and 12.10).
pub fn compared(first: &[u8], second: &[u8]) -> (u8, u64) {
    let (Some(first), second) = (read(first), read(second)) else {
        return (18, 0);
    };
    let Some(second) = second else {
        return (19, 0);
    };
    parted(&first, &second).map_or((0, 0), |place| (20, place as u64))
}

/// Two texts were compared, and then the other way round.
pub fn checked(made: &mut Made, first: &[u8], second: &[u8], told: [(u8, u64); 2]) -> Checked {
    let rules = [compared(first, second), compared(second, first)];
    made.same(Check::Agree, told[0], rules[0])?;
    let agree = told.map(|(number, _)| number == 0);
    made.hold(Check::EitherWay, agree[0] == agree[1], || {
        format!("one way {:?}, the other way {:?}", told[0], told[1])
    })?;
    made.same(Check::Agree, told[1], rules[1])
}
