use lupaniele::Text;

use crate::steps::{in_brackets, read_text};
use crate::{Got, Line, quoted};

/// A card's text in one line: `steps (..)` if it is structured, else `text ".."`.
///
/// ```
/// use lupaniele::{Step, Text, Unit};
/// assert_eq!(forms::payload("Tøm ved 205".as_bytes()), r#"text "Tøm ved 205""#);
/// let card = Text::new([Step::words("Drop at"), Step::drop(2_050, Unit::Celsius)]);
/// assert_eq!(forms::payload(&card.to_bytes()?), r#"steps (words "Drop at", drop 205.0 C)"#);
/// # Ok::<(), lupaniele::TextError>(())
/// ```
#[must_use]
pub fn payload(bytes: &[u8]) -> String {
    match Text::read(bytes) {
        Ok(text) => format!("steps {}", in_brackets(&text)),
        Err(_) => format!("text {}", quoted(bytes)),
    }
}

/// The bytes of a card's text: `text ".."`, `steps (..)`, or `steps` with the steps indented under the line.
///
/// # Errors
///
/// Where neither comes next.
///
/// ```
/// let mut line = forms::Line::new(1, r#"text "205""#)?;
/// assert_eq!(forms::read_payload(&mut line), Ok(b"205".to_vec()));
/// # Ok::<(), forms::Wrong>(())
/// ```
pub fn read_payload(line: &mut Line) -> Got<Vec<u8>> {
    if line.takes("text") {
        return line.quoted("the text");
    }
    let front = line.clone();
    if !line.takes("steps") {
        return line.wrong("a text is due, `text \"..\"` or `steps (..)`");
    }
    let bytes = read_text(line)?.to_bytes();
    bytes.or_else(|why| front.says(why.to_string()))
}
