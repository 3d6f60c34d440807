//! A card's text as a label of a few short lines. Where not all of it fits, its first figure stays: that is what
//! people look for.

use lupaniele::{Step, Text};

/// What is left out.
const DOTS: &str = "\u{2026}";

/// The words of a text: a structured text's steps, text, or a count of bytes.
fn words(text: &[u8]) -> Vec<String> {
    let mut words = Vec::new();
    match (Text::read(text), std::str::from_utf8(text)) {
        (Ok(tree), _) => of_steps(&tree, &mut words),
        (_, Ok(text)) => words.extend(text.split_whitespace().map(String::from)),
        _ => words.extend([text.len().to_string(), "bytes".into()]),
    }
    words
}

fn of_steps(text: &Text, words: &mut Vec<String>) {
    for step in &text.steps {
        match step {
            Step::Section(text) => of_steps(text, words),
            step => words.extend(step.to_string().split_whitespace().map(String::from)),
        }
    }
}

fn has_figure(word: &str) -> bool {
    word.contains(|sign: char| sign.is_ascii_digit())
}

fn length(word: &str) -> usize {
    word.chars().count()
}

/// A word of at most so many signs; a longer one keeps its figure, or its front.
fn cut(word: &str, most: usize) -> String {
    if length(word) <= most {
        return word.into();
    }
    let room = most.saturating_sub(1).max(1);
    let figure = word.find(|sign: char| sign.is_ascii_digit());
    let end = figure.map(|at| {
        let tail = word[at..].chars();
        let digits = tail.take_while(|sign| sign.is_ascii_digit() || *sign == '.');
        word[..at].chars().count() + digits.count()
    });
    match end {
        Some(end) if end > room => {
            let from = end - room;
            let kept: String = word.chars().skip(from).take(room).collect();
            format!("{DOTS}{kept}")
        }
        _ => word.chars().take(room).chain(DOTS.chars()).collect(),
    }
}

/// Words in lines of so many signs.
fn lines(words: &[String], wide: usize) -> Vec<String> {
    let mut lines: Vec<String> = Vec::new();
    for word in words {
        match lines.last_mut() {
            Some(line) if length(line) + 1 + length(word) <= wide => {
                line.push(' ');
                line.push_str(word);
            }
            _ => lines.push(word.clone()),
        }
    }
    lines
}

/// The words from one up to another, with dots for what is left out.
fn part(words: &[String], from: usize, to: usize) -> Vec<String> {
    let front = (from > 0).then(|| DOTS.to_string());
    let back = (to < words.len()).then(|| DOTS.to_string());
    let kept = words[from..to].iter().cloned();
    front.into_iter().chain(kept).chain(back).collect()
}

/// A text in at most so many lines of so many signs. All of it if it fits; else the words around its first figure, or
/// its first words where it has none.
pub fn label(text: &[u8], wide: usize, most: usize) -> Vec<String> {
    let words: Vec<String> = words(text).iter().map(|word| cut(word, wide)).collect();
    let whole = lines(&words, wide);
    if whole.len() <= most {
        return whole;
    }
    let fits = |from: usize, to: usize| lines(&part(&words, from, to), wide).len() <= most;
    let figure = words.iter().position(|word| has_figure(word)).unwrap_or(0);
    let (mut from, mut to) = (figure, figure + 1);
    if !fits(from, to) {
        return vec![words[figure].clone()];
    }
    while to < words.len() && fits(from, to + 1) && to < figure + 2 {
        to += 1;
    }
    while from > 0 && fits(from - 1, to) {
        from -= 1;
    }
    while to < words.len() && fits(from, to + 1) {
        to += 1;
    }
    lines(&part(&words, from, to), wide)
}

#[cfg(test)]
mod tests {
    use super::label;
    use lupaniele::{Step, Text, Unit};

    #[test]
    fn all_of_a_short_text() {
        assert_eq!(label(b"205", 12, 2), ["205"]);
        assert_eq!(
            label("Tøm ved 205 C".as_bytes(), 12, 2),
            ["Tøm ved 205", "C"]
        );
        assert_eq!(label(b"", 12, 2), [""; 0]);
    }

    #[test]
    fn the_figure_of_a_long_one() {
        let text = b"Let the drum cool, charge, and drop the beans at 205.5 C before they smoke";
        let label = label(text, 12, 2);
        assert!(label.join(" ").contains("205.5 C"), "{label:?}");
        assert!(
            label.iter().all(|line| line.chars().count() <= 12),
            "{label:?}"
        );
    }

    #[test]
    fn the_figure_of_a_long_word() {
        let label = label(b"drop-temperature-is-205-degrees-Celsius", 12, 1);
        assert!(label.join(" ").contains("205"), "{label:?}");
    }

    #[test]
    fn the_drop_of_a_structured_text() {
        let text = Text::new([Step::words("Drop at"), Step::drop(2_050, Unit::Celsius)]);
        let bytes = text.to_bytes().unwrap();
        assert_eq!(label(&bytes, 12, 2), ["Drop at", "205.0 C"]);
    }

    #[test]
    fn bytes_are_counted() {
        assert_eq!(label(&[0xff, 0xfe], 12, 2), ["2 bytes"]);
    }
}
