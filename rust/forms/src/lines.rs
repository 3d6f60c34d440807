use crate::{Got, Line, Wrong};

/// How deep lines are indented under one another at most: more than any text of these forms needs.
const DEEPEST: usize = 16;

/// The text in the bytes of a file.
///
/// # Errors
///
/// Where they are no UTF-8, begin with a byte order mark, or have lines that end with CR LF.
///
/// ```
/// assert_eq!(forms::decoded("Tøm".as_bytes()), Ok("Tøm"));
/// let wrong = forms::decoded(b"cards 1\r\nroom 16\r\n").unwrap_err();
/// assert_eq!(wrong.to_string(), "line 1, column 8: the line ends with CR LF: save the file with LF alone (Unix line ends)");
/// ```
pub fn decoded(bytes: &[u8]) -> Got<&str> {
    let text = std::str::from_utf8(bytes).map_err(|why| {
        let (valid, rest) = bytes.split_at(why.valid_up_to());
        let byte = rest.first().copied().unwrap_or(0);
        let told = format!("byte {byte:02x} is no UTF-8: save the file as UTF-8, and write other bytes as `\\x{byte:02x}` in quotes");
        wrong_behind(&String::from_utf8_lossy(valid), told)
    })?;
    if text.starts_with('\u{feff}') {
        let told = "a byte order mark stands in front: save the file as UTF-8 without one";
        return Err(Wrong::new(1, 1, told));
    }
    if let Some((before, _)) = text.split_once('\r') {
        let told = "the line ends with CR LF: save the file with LF alone (Unix line ends)";
        return Err(wrong_behind(before, told.into()));
    }
    Ok(text)
}

/// What is wrong just behind some text.
fn wrong_behind(before: &str, told: String) -> Wrong {
    let line = before.rsplit('\n').next().unwrap_or(before);
    let lines = before.matches('\n').count();
    Wrong::new(lines + 1, line.chars().count() + 1, told)
}

/// The lines of a text that say something, each with the lines that are indented under it. Behind `#` stands a comment.
///
/// # Errors
///
/// As [`decoded`]; where a line cannot be split into words, or is not indented as those beside it.
///
/// ```
/// let mut lines = forms::lines("# two lines\nsteps\n  words \"Drop\"\n  drop 205.0 C\n\nsteps\n")?;
/// assert_eq!(lines.len(), 2);
/// assert_eq!(lines[0].under().len(), 2);
/// # Ok::<(), forms::Wrong>(())
/// ```
pub fn lines(text: &str) -> Got<Vec<Line>> {
    let text = decoded(text.as_bytes())?;
    let mut open: Vec<(usize, Line)> = Vec::new(); // each stands under the one before it
    let mut top = Vec::new();
    for (at, text) in text.lines().enumerate() {
        let line = Line::new(at + 1, text)?;
        if line.is_done() {
            continue;
        }
        let indent = indent(at + 1, text)?;
        let last = close(&mut open, &mut top, indent);
        fits(&open, last, &line, indent)?;
        open.push((indent, line));
    }
    close(&mut open, &mut top, 0);
    Ok(top)
}

/// By how many spaces a line is indented.
fn indent(line: usize, text: &str) -> Got<usize> {
    let indent = text.len() - text.trim_start_matches(' ').len();
    match text
        .trim_start_matches(' ')
        .starts_with(char::is_whitespace)
    {
        true => Err(Wrong::new(
            line,
            indent + 1,
            "lines are indented by spaces alone",
        )),
        false => Ok(indent),
    }
}

/// Puts away the open lines that one with this indent does not stand under; the indent of the last of them.
fn close(open: &mut Vec<(usize, Line)>, top: &mut Vec<Line>, indent: usize) -> Option<usize> {
    let mut last = None;
    while let Some((above, line)) = open.pop_if(|(above, _)| *above >= indent) {
        last = Some(above);
        match open.last_mut() {
            Some((_, outer)) => outer.put_under(line),
            None => top.push(line),
        }
    }
    last
}

/// Whether a line is indented as the one beside it was, and not too deep.
fn fits(open: &[(usize, Line)], beside: Option<usize>, line: &Line, indent: usize) -> Got<()> {
    if open.len() == DEEPEST {
        return line.says(format!(
            "lines stand at most {DEEPEST} deep under one another"
        ));
    }
    match beside {
        Some(beside) if beside != indent => line.says(format!(
            "the line is indented by {indent}, the one beside it by {beside}"
        )),
        None if open.is_empty() && indent > 0 => {
            line.says("the line is indented, and there is none above it to stand under")
        }
        _ => Ok(()),
    }
}
