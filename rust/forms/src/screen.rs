//! Text on a terminal: how wide it is, folded and cut to fit.

/// How many columns a screen takes at most.
///
/// ```
/// assert_eq!(forms::COLUMNS, 100);
/// ```
pub const COLUMNS: usize = 100;

/// How many columns a character takes, near enough: none for signs that stand on the one before, two for wide ones.
fn width_of(sign: char) -> usize {
    match sign {
        '\u{300}'..='\u{36f}'
        | '\u{483}'..='\u{489}'
        | '\u{591}'..='\u{5bd}'
        | '\u{64b}'..='\u{65f}' => 0,
        '\u{1ab0}'..='\u{1aff}'
        | '\u{1dc0}'..='\u{1dff}'
        | '\u{20d0}'..='\u{20ff}'
        | '\u{fe00}'..='\u{fe0f}' => 0,
        '\u{1100}'..='\u{115f}'
        | '\u{2e80}'..='\u{a4cf}'
        | '\u{ac00}'..='\u{d7a3}'
        | '\u{f900}'..='\u{faff}' => 2,
        '\u{fe30}'..='\u{fe6f}' | '\u{ff00}'..='\u{ff60}' | '\u{ffe0}'..='\u{ffe6}' => 2,
        '\u{1f300}'..='\u{1faff}' | '\u{20000}'..='\u{3fffd}' => 2,
        _ => 1,
    }
}

/// How many columns a text takes.
///
/// ```
/// assert_eq!((forms::width("Tøm"), forms::width("焙煎")), (3, 4));
/// ```
#[must_use]
pub fn width(text: &str) -> usize {
    text.chars().map(width_of).sum()
}

/// A text of one line that takes at most so many columns, cut with `…` where it must be.
///
/// ```
/// assert_eq!(forms::cut("Tøm ved 205", 10), "Tøm ved 2…");
/// ```
#[must_use]
pub fn cut(text: &str, most: usize) -> String {
    if width(text) <= most {
        return text.into();
    }
    let (mut kept, mut columns) = (String::new(), 1);
    for sign in text.chars() {
        columns += width_of(sign);
        if columns > most {
            break;
        }
        kept.push(sign);
    }
    kept + "…"
}

/// A text filled up with spaces to so many columns.
///
/// ```
/// assert_eq!(forms::padded("Tøm", 5), "Tøm  ");
/// ```
#[must_use]
pub fn padded(text: &str, columns: usize) -> String {
    let missing = columns.saturating_sub(width(text));
    format!("{text}{}", " ".repeat(missing))
}

/// Words folded into lines that fit, each but the first indented by so many columns, as many as stand in front of the
/// first. What stands in quotes or in brackets stays together, if it fits in a line.
///
/// ```
/// let words = format!("{} steps (words \"Drop at\", drop 205.0 C)", "x".repeat(80));
/// assert!(forms::folded(&words, 5).ends_with("x steps\n     (words \"Drop at\", drop 205.0 C)"));
/// ```
#[must_use]
pub fn folded(words: &str, indent: usize) -> String {
    let (mut text, mut columns) = (String::new(), indent);
    for group in groups(words) {
        let whole = indent + width(group) <= COLUMNS;
        let parts: Vec<&str> = match whole {
            true => vec![group],
            false => group.split(' ').collect(),
        };
        for part in parts {
            if columns > indent && columns + 1 + width(part) > COLUMNS {
                text.push('\n');
                text.push_str(&" ".repeat(indent));
                columns = indent;
            } else if columns > indent {
                text.push(' ');
                columns += 1;
            }
            text.push_str(part);
            columns += width(part);
        }
    }
    text
}

/// The words of a line, what stands in quotes or brackets as one.
fn groups(words: &str) -> impl Iterator<Item = &str> {
    let (mut brackets, mut quoted, mut escaped) = (0, false, false);
    words.split(move |sign| {
        match sign {
            _ if escaped => escaped = false,
            '\\' if quoted => escaped = true,
            '"' => quoted = !quoted,
            '(' if !quoted => brackets += 1,
            ')' if !quoted => brackets -= 1,
            _ => {}
        }
        sign == ' ' && brackets == 0 && !quoted
    })
}

#[cfg(test)]
mod tests {
    use super::*;

    #[test]
    fn what_is_cut_fits_and_says_so() {
        assert_eq!(cut("Tøm ved 205", 11), "Tøm ved 205");
        assert_eq!(cut("焙煎豆", 5), "焙煎…");
        assert_eq!(width("e\u{301}"), 1);
    }

    #[test]
    fn folded_lines_fit() {
        let words = "word ".repeat(60);
        let text = format!("    {}", folded(words.trim(), 4));
        assert!(
            text.lines()
                .all(|line| width(line) <= COLUMNS && line.starts_with("    word"))
        );
        assert_eq!(text.split_whitespace().count(), 60);
        assert_eq!(folded("one two", 0), "one two");
    }

    #[test]
    fn what_belongs_together_stays_together() {
        let pair = format!("{} (1.1.0, none) is stored", "x".repeat(90));
        assert_eq!(
            folded(&pair, 0).lines().nth(1),
            Some("(1.1.0, none) is stored")
        );
        let quoted = format!("{} \"a \\\" ( b\" c", "x".repeat(90));
        assert_eq!(folded(&quoted, 0).lines().nth(1), Some("\"a \\\" ( b\" c"));
        let long = format!("text \"{}\"", "word ".repeat(60));
        assert!(folded(&long, 5).lines().all(|line| width(line) <= COLUMNS));
    }
}
