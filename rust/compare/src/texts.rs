//! Structured texts: pairs that agree or nearly do, and pairs that are damaged.

use lupaniele::raw;
use second::random::Random;
use second::texts::{agree, read, unmatched, Why, DEEPEST};

use crate::coverage::{Kind, Run};
use crate::proved::UNWRITTEN;
use crate::run::{bytes, same, Compared};

/// The proved library's number and place for two texts.
pub fn proved(first: &[u8], second: &[u8]) -> (u8, u64) {
    let mut place = UNWRITTEN;
    let number = raw::agree(first, second, &mut place);
    (number, place)
}

/// A step of a text that is made here.
#[derive(Clone, Debug)]
enum Step {
    Words(Vec<u8>),
    Drop(u8, u16),
    Section(Vec<Step>),
}

/// The bytes of a section.
fn section_bytes(steps: &[Step]) -> Vec<u8> {
    let mut bytes = vec![1, steps.len() as u8];
    steps.iter().for_each(|step| step.write(&mut bytes));
    bytes
}

impl Step {
    fn write(&self, bytes: &mut Vec<u8>) {
        match self {
            Step::Words(words) => {
                bytes.extend([2, words.len() as u8]);
                bytes.extend(words);
            }
            Step::Drop(unit, tenths) => {
                bytes.extend([3, *unit]);
                bytes.extend(tenths.to_le_bytes());
            }
            Step::Section(steps) => {
                bytes.push(4);
                bytes.extend(section_bytes(steps));
            }
        }
    }

    /// A step of this kind, or of any.
    fn any(random: &mut Random, depth: usize, kind: u64) -> Step {
        match kind {
            0 => Step::Words(any_words(random)),
            1 => Step::Drop(any_unit(random), any_tenths(random)),
            _ => Step::Section(any_steps(random, depth)),
        }
    }

    /// What another language may say for it: other words, the drop in either
    /// scale near the edge of what agrees, the steps of a section in turn.
    fn partner(&self, random: &mut Random) -> Step {
        match self {
            Step::Words(_) => Step::Words(any_words(random)),
            Step::Drop(unit, tenths) => {
                let off = random.pick(&[0, 0, 0, 0, 0, 20, 24, 25, -25, -24, -20, 26, -26]);
                let unit_of_other = any_unit(random);
                let tenths = nearest(unit_of_other, exact(*unit, *tenths) + off);
                Step::Drop(unit_of_other, tenths)
            }
            Step::Section(steps) => Step::Section(partners(random, steps)),
        }
    }
}

fn partners(random: &mut Random, steps: &[Step]) -> Vec<Step> {
    steps.iter().map(|step| step.partner(random)).collect()
}

fn any_words(random: &mut Random) -> Vec<u8> {
    let length = random.pick(&[0, 0, 1, 2, 3, 3, 3, 254, 255]);
    random.bytes(length)
}

fn any_unit(random: &mut Random) -> u8 {
    random.pick(b"CF")
}

fn any_tenths(random: &mut Random) -> u16 {
    let any = random.number() as u16;
    let roast = random.between(1_800, 2_400) as u16;
    random.pick(&[0, 1, roast, roast, roast, any, 65_534, 65_535])
}

/// Some steps, with at most so many sections within one another from here on.
fn any_steps(random: &mut Random, depth: usize) -> Vec<Step> {
    let count = random.pick(&[0, 1, 1, 2, 2, 3, 4]);
    let kinds = if depth == 0 { 2 } else { 3 };
    (0..count)
        .map(|_| {
            let kind = random.below(kinds);
            Step::any(random, depth.saturating_sub(1), kind)
        })
        .collect()
}

/// Fiftieths of a degree Fahrenheit.
fn exact(unit: u8, tenths: u16) -> i64 {
    match unit {
        67 => 9 * i64::from(tenths) + 1_600,
        _ => 5 * i64::from(tenths),
    }
}

/// The tenths of a unit nearest to so many fiftieths of a degree Fahrenheit.
fn nearest(unit: u8, fiftieths: i64) -> u16 {
    let tenths = match unit {
        67 => (fiftieths - 1_600 + 4).div_euclid(9),
        _ => (fiftieths + 2).div_euclid(5),
    };
    tenths.clamp(0, 65_535) as u16
}

/// One of the sections of a text, any of them.
fn some_section<'a>(random: &mut Random, steps: &'a mut Vec<Step>) -> &'a mut Vec<Step> {
    let inner: Vec<usize> = (0..steps.len())
        .filter(|at| matches!(steps[*at], Step::Section(_)))
        .collect();
    if inner.is_empty() || random.one_in(3) {
        return steps;
    }
    match &mut steps[random.pick(&inner)] {
        Step::Section(inner) => some_section(random, inner),
        _ => unreachable!("chosen among the sections"),
    }
}

/// A step more, a step less, or another step.
fn change(random: &mut Random, steps: &mut Vec<Step>) {
    let section = some_section(random, steps);
    let kind = random.below(3);
    let step = Step::any(random, 0, kind);
    let at = random.index(section.len() + 1);
    match random.below(3) {
        0 => section.insert(at, step),
        _ if at == section.len() => section.push(step),
        1 => drop(section.remove(at)),
        _ => section[at] = step,
    }
}

/// Pairs of every sort.
pub fn any(run: &mut Run, random: &mut Random) -> Compared<()> {
    for _ in 0..40 {
        let mut first = any_steps(random, 3);
        let mut second = partners(random, &first);
        if random.one_in(2) {
            change(random, &mut second);
        }
        if random.one_in(16) {
            first = around(random, first);
            second = around(random, second);
        }
        let (first, second) = (section_bytes(&first), section_bytes(&second));
        both(run, &first, &second)?;
        let broken = damaged(run, random, &first);
        both(run, &broken, &second)?;
        both(run, &second, &broken)?;
        let length = random.index(24);
        both(run, &random.bytes(length), &first)?;
        run.seen(Kind::TextsRandom);
    }
    full(run, random)?;
    cuts(run, random)
}

/// Steps, but for sections, with so many sections around them that the whole
/// is 5 to 9 deep.
fn around(random: &mut Random, steps: Vec<Step>) -> Vec<Step> {
    let flat = steps
        .into_iter()
        .filter(|step| !matches!(step, Step::Section(_)));
    let flat: Vec<Step> = flat.collect();
    let times = random.between(DEEPEST as u64 - 4, DEEPEST as u64);
    (0..times).fold(flat, |steps, _| vec![Step::Section(steps)])
}

/// One byte changed, taken or added.
fn damaged(run: &mut Run, random: &mut Random, text: &[u8]) -> Vec<u8> {
    let mut text = text.to_vec();
    let at = random.index(text.len());
    let byte = random.pick(&[0, 1, 2, 3, 4, 5, 66, 67, 68, 69, 70, 71, 255]);
    let how = random.index(3);
    match how {
        0 => text[at] = byte,
        1 => drop(text.remove(at)),
        _ => text.insert(at, byte),
    }
    let kind = match (how, read(&text)) {
        (0, None) => 0,
        (0, Some(_)) => 1,
        _ => how + 1,
    };
    run.seen_at(Kind::TextsDamaged, kind);
    text
}

/// As many steps as a count can say, and one fewer.
fn full(run: &mut Run, random: &mut Random) -> Compared<()> {
    let kind = random.below(2);
    let steps: Vec<Step> = (0..255).map(|_| Step::any(random, 0, kind)).collect();
    let second = partners(random, &steps);
    let (first, second) = (section_bytes(&steps), section_bytes(&second));
    both(run, &first, &second)?;
    let fewer = section_bytes(&steps[..254]);
    both(run, &first, &fewer)?;
    both(run, &fewer, &first)?;
    run.seen(Kind::TextsFull);
    Ok(())
}

/// A text cut at every byte, and with a byte behind it.
fn cuts(run: &mut Run, random: &mut Random) -> Compared<()> {
    let text = section_bytes(&any_steps(random, 3));
    for length in 0..text.len() {
        both(run, &text[..length], &text)?;
        both(run, &text, &text[..length])?;
    }
    let more = [&text[..], &[random.byte()]].concat();
    both(run, &more, &text)?;
    both(run, &text, &more)?;
    run.seen(Kind::TextsCut);
    Ok(())
}

/// Every two drops that differ by exactly half a degree Fahrenheit.
pub fn ties(run: &mut Run) -> Compared<()> {
    for (unit, other) in [(67, 70), (70, 67), (70, 70)] {
        for tenths in 0..=u16::MAX {
            let one = exact(unit, tenths);
            for off in [-25, 25] {
                let near = nearest(other, one + off);
                if exact(other, near) != one + off {
                    continue;
                }
                let first = section_bytes(&[Step::Drop(unit, tenths)]);
                let second = section_bytes(&[Step::Drop(other, near)]);
                let number = both(run, &first, &second)?;
                run.seen_at(Kind::TextsTies, usize::from(number == 20));
            }
        }
    }
    Ok(())
}

/// Both answers; counts what they are.
fn both(run: &mut Run, first: &[u8], second: &[u8]) -> Compared<u8> {
    let told = agree(first, second);
    let input = || bytes("first", first) + &bytes("second", second);
    same("agree", proved(first, second), told, input)?;
    run.number(told.0);
    if told.0 == 18 && is_too_deep(first) {
        run.seen(Kind::TextsDeep);
    }
    match told.0 {
        18 => run.seen_at(Kind::TextsIll, usize::from(read(second).is_none())),
        19 => run.seen_at(Kind::TextsIll, 2),
        20 => parted(run, first, second),
        _ => {
            let depth = depth(first);
            run.seen_at(Kind::TextsDepth, depth.min(DEEPEST) - 1);
        }
    }
    Ok(told.0)
}

/// Whether only the outermost section makes a text ill formed.
fn is_too_deep(text: &[u8]) -> bool {
    text.strip_prefix(&[1, 1, 4])
        .is_some_and(|inner| read(text).is_none() && read(inner).is_some())
}

/// Counts why two texts part.
fn parted(run: &mut Run, first: &[u8], second: &[u8]) {
    let (one, two) = (read(first), read(second));
    let Some(found) = one.zip(two).and_then(|(one, two)| unmatched(&one, &two)) else {
        return;
    };
    let inner = usize::from(found.depth > 1);
    match found.why {
        Why::Kinds(kind, other) => {
            let at = 3 * usize::from(kind - 2) + usize::from(other - 2);
            // Three of the nine are one kind against itself, and are no difference.
            run.seen_at(Kind::TextsKinds, [0, 0, 1, 2, 0, 3, 4, 5][at]);
        }
        Why::Far => run.seen_at(Kind::TextsFar, inner),
        Why::FirstHasMore => run.seen_at(Kind::TextsMore, inner),
        Why::SecondHasMore => {
            let last = found.place == first.len();
            run.seen_at(Kind::TextsMore, 2 + inner);
            run.seen_at(Kind::TextsPast, usize::from(!last));
        }
    }
}

/// How many sections stand within one another at the first section's deepest,
/// along its first steps.
fn depth(text: &[u8]) -> usize {
    let mut depth = 1;
    let mut at = 2;
    while text.get(at) == Some(&4) {
        depth += 1;
        at += 3;
    }
    depth
}
