use lupaniele::{DEEPEST, Step, Text, Unit};

use crate::{Got, Line, Wrong, lines, quoted};

/// A structured text (section 12 of the rules) as a line `steps` and its steps indented under it, a line each.
///
/// ```
/// use lupaniele::{Step, Text, Unit};
/// let inner = Text::new([Step::words("Tøm ved"), Step::drop(2_050, Unit::Celsius)]);
/// let text = Text::new([Step::words("Santos, dark"), Step::Section(inner)]);
/// let form = forms::steps(&text);
/// assert_eq!(form, r#"steps
///   words "Santos, dark"
///   section
///     words "Tøm ved"
///     drop 205.0 C
/// "#);
/// assert_eq!(forms::read_steps(&form), Ok(text));
/// ```
#[must_use]
pub fn steps(text: &Text) -> String {
    let mut form = String::from("steps\n");
    write_block(&mut form, text, 1);
    form
}

/// The steps of a text, a line each, so many levels indented.
pub(crate) fn write_block(form: &mut String, text: &Text, level: usize) {
    for step in &text.steps {
        form.push_str(&"  ".repeat(level));
        match step {
            Step::Section(inner) => {
                form.push_str("section\n");
                write_block(form, inner, level + 1);
            }
            step => {
                form.push_str(&self::step(step));
                form.push('\n');
            }
        }
    }
}

/// A step in one line; the steps of a section stand in brackets.
///
/// ```
/// use lupaniele::{Step, Text, Unit};
/// let drop = Step::drop(2_050, Unit::Celsius);
/// assert_eq!(forms::step(&drop), "drop 205.0 C");
/// let section = Step::Section(Text::new([Step::words("Drop at"), drop]));
/// assert_eq!(forms::step(&section), r#"section (words "Drop at", drop 205.0 C)"#);
/// ```
#[must_use]
pub fn step(step: &Step) -> String {
    match step {
        Step::Words(words) => format!("words {}", quoted(words)),
        Step::Drop { .. } => format!("drop {step}"),
        Step::Section(text) => format!("section {}", in_brackets(text)),
    }
}

/// The steps of a text in brackets.
pub(crate) fn in_brackets(text: &Text) -> String {
    let steps: Vec<String> = text.steps.iter().map(step).collect();
    format!("({})", steps.join(", "))
}

/// The structured text that a form says.
///
/// # Errors
///
/// Where the form is not as [`steps`] writes it, or says a text that has no bytes.
///
/// ```
/// let wrong = forms::read_steps("steps\n  drop 205 K\n").unwrap_err();
/// assert_eq!(wrong.to_string(), "line 2, column 12: a unit is due, `C` or `F`, not `K`");
/// assert!(forms::read_steps("").is_err());
/// ```
pub fn read_steps(form: &str) -> Got<Text> {
    let mut all = lines(form)?.into_iter();
    let Some(mut line) = all.next() else {
        return Err(Wrong::new(
            1,
            1,
            "a structured text is due: a line `steps`, its steps indented under it",
        ));
    };
    line.words("steps")?;
    let text = read_text(&mut line)?;
    line.done()?;
    match all.next() {
        None => Ok(text),
        Some(line) => line.says("the text's end is due: its steps are indented under `steps`"),
    }
}

/// What stands behind `steps`: the steps in brackets, or under the line; a text that has bytes.
pub(crate) fn read_text(line: &mut Line) -> Got<Text> {
    let front = line.clone();
    let text = read_section(line, 1)?;
    match text.to_bytes() {
        Ok(_) => Ok(text),
        Err(why) => front.says(why.to_string()),
    }
}

/// A section's steps: in brackets, or under the line.
fn read_section(line: &mut Line, depth: usize) -> Got<Text> {
    if depth > DEEPEST {
        return line.says(format!(
            "at most {DEEPEST} sections stand within one another"
        ));
    }
    if !line.is_done() {
        return read_brackets(line, depth);
    }
    let mut text = Text::default();
    for mut under in line.under() {
        text.steps.push(read_step(&mut under, depth)?);
        under.done()?;
    }
    Ok(text)
}

fn read_brackets(line: &mut Line, depth: usize) -> Got<Text> {
    let mut text = Text::default();
    line.sign('(')?;
    while !line.takes_sign(')') {
        if !text.steps.is_empty() {
            line.sign(',')?;
        }
        text.steps.push(read_step(line, depth)?);
    }
    Ok(text)
}

fn read_step(line: &mut Line, depth: usize) -> Got<Step> {
    match () {
        () if line.takes("words") => Ok(Step::Words(line.quoted("the words")?)),
        () if line.takes("drop") => read_drop(line),
        () if line.takes("section") => Ok(Step::Section(read_section(line, depth + 1)?)),
        () => line.wrong("a step is due, `words`, `drop` or `section`"),
    }
}

fn read_drop(line: &mut Line) -> Got<Step> {
    let front = line.clone();
    let degrees = line.word("a temperature")?;
    let Some(tenths) = tenths(&degrees) else {
        let most = Step::drop(u16::MAX, Unit::Celsius).to_string();
        let most = most.trim_end_matches([' ', 'C']);
        return front.wrong(&format!(
            "a temperature is due, 0.0 to {most} in tenths of a degree"
        ));
    };
    let units = [Unit::Celsius, Unit::Fahrenheit];
    match units.into_iter().find(|unit| line.takes(&unit.to_string())) {
        Some(unit) => Ok(Step::drop(tenths, unit)),
        None => line.wrong("a unit is due, `C` or `F`"),
    }
}

/// 205 and 205.0 as 2050 tenths.
fn tenths(degrees: &str) -> Option<u16> {
    let (whole, tenth) = degrees.split_once('.').unwrap_or((degrees, "0"));
    let digits = whole.bytes().chain(tenth.bytes());
    if tenth.len() != 1 || !digits.clone().all(|digit| digit.is_ascii_digit()) {
        return None;
    }
    format!("{whole}{tenth}")
        .parse()
        .ok()
        .filter(|_| !whole.is_empty())
}
