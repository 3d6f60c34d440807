use std::fmt::Write;

use crate::Wrong;

/// Bytes in double quotes: characters of UTF-8 as such, `\"`, `\\` and `\n` for the quote, the stroke and the line's
/// end, `\x0f` for every other byte: what is no UTF-8, and characters that a terminal would not show.
///
/// ```
/// assert_eq!(forms::quoted("Tøm ved 205".as_bytes()), "\"Tøm ved 205\"");
/// assert_eq!(forms::quoted(b"a\"b\\\n\xff\x1b"), r#""a\"b\\\n\xff\x1b""#);
/// ```
#[must_use]
pub fn quoted(bytes: &[u8]) -> String {
    let mut text = String::from("\"");
    for part in bytes.utf8_chunks() {
        for sign in part.valid().chars() {
            match sign {
                '"' | '\\' => text.extend(['\\', sign]),
                '\n' => text.push_str("\\n"),
                sign if is_shown(sign) => text.push(sign),
                sign => escape(&mut text, sign.encode_utf8(&mut [0; 4]).as_bytes()),
            }
        }
        escape(&mut text, part.invalid());
    }
    text.push('"');
    text
}

fn escape(text: &mut String, bytes: &[u8]) {
    for byte in bytes {
        let _ = write!(text, "\\x{byte:02x}"); // a String takes whatever is written
    }
}

/// Whether a character stands for itself: not those that move the cursor, change the direction of writing, or are seen
/// by nobody.
fn is_shown(sign: char) -> bool {
    let hidden = matches!(sign,
        '\u{ad}' | '\u{61c}' | '\u{180e}' | '\u{200b}'..='\u{200f}' | '\u{2028}'..='\u{202e}' | '\u{2060}'..='\u{206f}'
        | '\u{feff}' | '\u{fff9}'..='\u{fffb}' | '\u{e0000}'..='\u{e0fff}');
    !sign.is_control() && !hidden
}

/// The bytes of a quoted text that begins at a character of a line, and the character behind it.
pub(crate) fn unquoted(line: usize, all: &[char], begin: usize) -> Result<(Vec<u8>, usize), Wrong> {
    let wrong = |at: usize, told: &str| Err(Wrong::new(line, at + 1, told));
    let (mut bytes, mut at) = (Vec::new(), begin + 1);
    loop {
        match (all.get(at), all.get(at + 1)) {
            (None, _) => return wrong(begin, "the quote that begins here is not closed"),
            (Some('"'), _) => return Ok((bytes, at + 1)),
            (Some('\\'), Some(sign @ ('"' | '\\'))) => bytes.push(*sign as u8),
            (Some('\\'), Some('n')) => bytes.push(b'\n'),
            (Some('\\'), Some('x')) => {
                let digit = |at: usize| all.get(at).and_then(|sign| sign.to_digit(16));
                let (Some(high), Some(low)) = (digit(at + 2), digit(at + 3)) else {
                    return wrong(
                        at,
                        "behind `\\x` stand two digits of base 16, as in `\\x0f`",
                    );
                };
                bytes.push((high * 16 + low) as u8);
                at += 2;
            }
            (Some('\\'), _) => {
                return wrong(
                    at,
                    "behind `\\` stands `\"`, `\\`, `n` or `x` with two digits",
                );
            }
            (Some(sign), _) => {
                bytes.extend_from_slice(sign.encode_utf8(&mut [0; 4]).as_bytes());
                at -= 1;
            }
        }
        at += 2;
    }
}

#[cfg(test)]
mod tests {
    use super::quoted;

    #[test]
    fn what_a_terminal_would_not_show_is_escaped() {
        for sign in [
            '\0',
            '\t',
            '\r',
            '\u{1b}',
            '\u{7f}',
            '\u{85}',
            '\u{ad}',
            '\u{200b}',
            '\u{200e}',
            '\u{2028}',
            '\u{202e}',
            '\u{2066}',
            '\u{feff}',
            '\u{e0041}',
        ] {
            let form = quoted(format!("a{sign}b").as_bytes());
            assert!(form.starts_with("\"a\\x") && form.is_ascii(), "{form}");
        }
        for sign in ['ø', '焙', '🔥', 'é', '\u{301}'] {
            assert_eq!(
                quoted(format!("a{sign}").as_bytes()),
                format!("\"a{sign}\"")
            );
        }
    }
}
