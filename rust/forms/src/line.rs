use lupaniele::{DeskId, Mark, Pair, Stamp};

use crate::quoted::unquoted;
use crate::{Got, Wrong};

/// A word or number, a sign, or a quoted text.
#[derive(Clone, Debug, PartialEq, Eq)]
enum Token {
    Word(String),
    Sign(char),
    Quoted(Vec<u8>),
}

/// A line of text, read from its front word by word, with the lines that are indented under it.
///
/// ```
/// use lupaniele::{Pair, Stamp};
/// let mut line = forms::Line::new(7, "card 3 by (1.1.0, none) # a comment")?;
/// line.words("card")?;
/// assert_eq!(line.number_of("the card", 127)?, 3);
/// assert!(line.takes("by") && !line.takes("by"));
/// assert_eq!(line.pair()?, Pair::new(Stamp::new(1, 1, 0), Stamp::NONE));
/// line.done()?;
/// # Ok::<(), forms::Wrong>(())
/// ```
#[derive(Clone, Debug)]
pub struct Line {
    number: usize,
    tokens: Vec<(usize, Token)>,
    at: usize,
    end: usize,
    under: Vec<Line>,
}

impl Line {
    /// The line of that number, from 1, with this text. Behind `#` stands a comment.
    ///
    /// # Errors
    ///
    /// Where it cannot be split into words.
    ///
    /// ```
    /// let wrong = forms::Line::new(7, "text \"205").unwrap_err();
    /// assert_eq!(wrong.to_string(), "line 7, column 6: the quote that begins here is not closed");
    /// ```
    pub fn new(number: usize, text: &str) -> Got<Line> {
        let all: Vec<char> = text.chars().collect();
        let (mut tokens, mut at) = (Vec::new(), 0);
        while let Some(sign) = all.get(at).filter(|sign| **sign != '#') {
            let (token, end) = match sign {
                space if space.is_whitespace() => {
                    at += 1;
                    continue;
                }
                '"' => {
                    let (bytes, end) = unquoted(number, &all, at)?;
                    (Token::Quoted(bytes), end)
                }
                '(' | ')' | ',' => (Token::Sign(*sign), at + 1),
                first if is_word(*first) => {
                    let rest = all[at..].iter().take_while(|next| is_word(**next));
                    let word: String = rest.collect();
                    let end = at + word.chars().count();
                    (Token::Word(word), end)
                }
                other => {
                    let told = format!("{} stands for nothing here", shown(*other));
                    return Err(Wrong::new(number, at + 1, told));
                }
            };
            tokens.push((at + 1, token));
            at = end;
        }
        Ok(Line {
            number,
            tokens,
            at: 0,
            end: text.trim_end().chars().count() + 1,
            under: Vec::new(),
        })
    }

    /// Its number, from 1.
    #[must_use]
    pub fn number(&self) -> usize {
        self.number
    }

    pub(crate) fn put_under(&mut self, line: Line) {
        self.under.push(line);
    }

    /// Takes the lines that are indented under it.
    pub fn under(&mut self) -> Vec<Line> {
        std::mem::take(&mut self.under)
    }

    /// Whether every word of it is read.
    #[must_use]
    pub fn is_done(&self) -> bool {
        self.at == self.tokens.len()
    }

    /// Nothing is left, nor under it.
    ///
    /// # Errors
    ///
    /// Where something is.
    pub fn done(&self) -> Got<()> {
        match self.under.first() {
            _ if !self.is_done() => self.wrong("the line's end is due"),
            Some(line) => line.says("nothing may be indented under the line above"),
            None => Ok(()),
        }
    }

    fn next(&self) -> Option<&Token> {
        self.tokens.get(self.at).map(|next| &next.1)
    }

    /// This is wrong at what comes next.
    ///
    /// # Errors
    ///
    /// Always.
    pub fn says<T>(&self, told: impl Into<String>) -> Got<T> {
        let column = self.tokens.get(self.at).map_or(self.end, |next| next.0);
        Err(Wrong::new(self.number, column, told))
    }

    /// This is due, and something else comes next, or nothing: it is named.
    ///
    /// # Errors
    ///
    /// Always.
    ///
    /// ```
    /// let line = forms::Line::new(1, "rom 16")?;
    /// let wrong = line.wrong::<()>("`room` is due").unwrap_err();
    /// assert_eq!(wrong.told, "`room` is due, not `rom`");
    /// # Ok::<(), forms::Wrong>(())
    /// ```
    pub fn wrong<T>(&self, told: &str) -> Got<T> {
        self.says(match self.next() {
            Some(Token::Word(word)) => format!("{told}, not `{word}`"),
            Some(Token::Sign(sign)) => format!("{told}, not `{sign}`"),
            Some(Token::Quoted(_)) => format!("{told}, not a text in quotes"),
            None => format!("{told}, and the line ends here"),
        })
    }

    /// Whether a word comes next; it is then read.
    pub fn takes(&mut self, word: &str) -> bool {
        let comes = matches!(self.next(), Some(Token::Word(next)) if next == word);
        self.at += usize::from(comes);
        comes
    }

    /// Whether this word comes next; nothing is read.
    #[must_use]
    pub fn is_at(&self, word: &str) -> bool {
        matches!(self.next(), Some(Token::Word(next)) if next == word)
    }

    /// These words come next.
    ///
    /// # Errors
    ///
    /// Where one of them does not.
    pub fn words(&mut self, words: &str) -> Got<()> {
        words
            .split(' ')
            .try_for_each(|word| match self.takes(word) {
                true => Ok(()),
                false => self.wrong(&format!("`{word}` is due")),
            })
    }

    /// Any word comes next.
    ///
    /// # Errors
    ///
    /// Where none does: `what` is due, such as "the name of a desk".
    pub fn word(&mut self, what: &str) -> Got<String> {
        self.word_as(|word| Some(word.to_string()), &format!("{what} is due"))
    }

    /// A word comes next that can be read so; else this is due.
    fn word_as<T>(&mut self, read: impl FnOnce(&str) -> Option<T>, due: &str) -> Got<T> {
        let read = match self.next() {
            Some(Token::Word(word)) => read(word),
            _ => None,
        };
        match read {
            Some(value) => {
                self.at += 1;
                Ok(value)
            }
            None => self.wrong(due),
        }
    }

    pub(crate) fn takes_sign(&mut self, sign: char) -> bool {
        let comes = self.next() == Some(&Token::Sign(sign));
        self.at += usize::from(comes);
        comes
    }

    pub(crate) fn sign(&mut self, sign: char) -> Got<()> {
        match self.takes_sign(sign) {
            true => Ok(()),
            false => self.wrong(&format!("`{sign}` is due")),
        }
    }

    /// A whole number comes next, at most so large.
    ///
    /// # Errors
    ///
    /// Where none does: `what` is due, such as "the card".
    pub fn number_of(&mut self, what: &str, most: u64) -> Got<u64> {
        let number = match self.next() {
            Some(Token::Word(word)) if is_whole(word) => Some(word.parse().unwrap_or(u64::MAX)),
            _ => None,
        };
        match number {
            Some(number) if number <= most => {
                self.at += 1;
                Ok(number)
            }
            Some(_) => self.wrong(&format!("{what} is at most {most}")),
            None => self.wrong(&format!("{what} is due, a number")),
        }
    }

    pub(crate) fn u16_of(&mut self, what: &str) -> Got<u16> {
        Ok(self.number_of(what, u16::MAX.into())? as u16)
    }

    pub(crate) fn u32_of(&mut self, what: &str) -> Got<u32> {
        Ok(self.number_of(what, u32::MAX.into())? as u32)
    }

    /// A number with or without a point comes next.
    ///
    /// # Errors
    ///
    /// Where none does: `what` is due, such as "the period".
    pub fn decimal(&mut self, what: &str) -> Got<f64> {
        let due = format!("{what} is due, a number such as 0.5");
        self.word_as(|word| word.parse().ok(), &due)
    }

    /// A text in quotes comes next.
    ///
    /// # Errors
    ///
    /// Where none does: `what` is due, such as "the text".
    pub fn quoted(&mut self, what: &str) -> Got<Vec<u8>> {
        match self.next() {
            Some(Token::Quoted(text)) => {
                let text = text.clone();
                self.at += 1;
                Ok(text)
            }
            _ => self.wrong(&format!("{what} is due, in double quotes")),
        }
    }

    /// Bytes come next to the line's end, each two digits of base 16.
    ///
    /// # Errors
    ///
    /// Where something else does.
    pub fn hex(&mut self) -> Got<Vec<u8>> {
        let read = |word: &str| match is_hex(word) {
            true => u8::from_str_radix(word, 16).ok(),
            false => None,
        };
        let mut bytes = Vec::new();
        while !self.is_done() {
            let byte = self.word_as(read, "a byte is due, two digits of base 16 as in 0f")?;
            bytes.push(byte);
        }
        Ok(bytes)
    }

    /// A stamp comes next: T.desk.start, or `none`.
    ///
    /// # Errors
    ///
    /// Where none does.
    pub fn stamp(&mut self) -> Got<Stamp> {
        if self.takes("none") {
            return Ok(Stamp::NONE);
        }
        let is_too_large = |word: &str| {
            let parts: Vec<&str> = word.split('.').collect();
            parts.len() == 3 && parts.into_iter().all(is_whole)
        };
        let due = match self.next() {
            Some(Token::Word(word)) if is_too_large(word) => {
                "in a stamp T is at most 4294967295, desk and start are at most 65535"
            }
            _ => "a stamp is due, T.desk.start as in 1.1.0, or `none`",
        };
        self.word_as(|word| word.parse().ok(), due)
    }

    /// A desk and its start come next, as in 1.0.
    ///
    /// # Errors
    ///
    /// Where they do not.
    pub fn desk(&mut self) -> Got<DeskId> {
        let read = |word: &str| {
            let (desk, start) = word.split_once('.')?;
            Some(DeskId::new(desk.parse().ok()?, start.parse().ok()?))
        };
        self.word_as(read, "a desk and its start are due, as in 1.0")
    }

    /// A pair comes next: (s, x).
    ///
    /// # Errors
    ///
    /// Where none does.
    pub fn pair(&mut self) -> Got<Pair> {
        self.sign('(')?;
        let s = self.stamp()?;
        self.sign(',')?;
        let x = self.stamp()?;
        self.sign(')')?;
        Ok(Pair::new(s, x))
    }

    /// A mark comes next: (desk, transaction), or `none`.
    ///
    /// # Errors
    ///
    /// Where none does.
    pub fn mark(&mut self) -> Got<Mark> {
        if self.takes("none") {
            return Ok(Mark::NONE);
        }
        self.sign('(')?;
        let desk = self.u16_of("the mark's desk")?;
        self.sign(',')?;
        let transaction = self.u32_of("the mark's transaction")?;
        self.sign(')')?;
        Ok(Mark::new(desk, transaction))
    }
}

fn is_word(sign: char) -> bool {
    sign.is_alphanumeric() || matches!(sign, '.' | '-' | '_')
}

fn is_whole(word: &str) -> bool {
    !word.is_empty() && word.bytes().all(|digit| digit.is_ascii_digit())
}

fn is_hex(word: &str) -> bool {
    word.len() == 2 && word.bytes().all(|digit| digit.is_ascii_hexdigit())
}

/// A character for a message: as such, or by its number where it is not seen.
fn shown(sign: char) -> String {
    match sign {
        '!'..='~' => format!("`{sign}`"),
        sign if sign.is_control() || sign == '\u{feff}' => {
            format!("character U+{:04X}", sign as u32)
        }
        sign => format!("`{sign}`"),
    }
}
