//! An image as JSON.

use std::fmt;

use lupaniele::{Card, Image, Language, Mark, Step, Text};

use crate::show::behind;

/// A value of JSON.
enum Value {
    Null,
    Bool(bool),
    Number(u64),
    Text(String),
    List(Vec<Value>),
    Map(Vec<(&'static str, Value)>),
}

impl fmt::Display for Value {
    fn fmt(&self, to: &mut fmt::Formatter) -> fmt::Result {
        match self {
            Value::Null => to.write_str("null"),
            Value::Bool(yes) => write!(to, "{yes}"),
            Value::Number(number) => write!(to, "{number}"),
            Value::Text(text) => write_text(to, text),
            Value::List(list) => {
                to.write_str("[")?;
                for (at, value) in list.iter().enumerate() {
                    write!(to, "{}{value}", if at == 0 { "" } else { ", " })?;
                }
                to.write_str("]")
            }
            Value::Map(map) => {
                to.write_str("{")?;
                for (at, (name, value)) in map.iter().enumerate() {
                    write!(to, "{}\"{name}\": {value}", if at == 0 { "" } else { ", " })?;
                }
                to.write_str("}")
            }
        }
    }
}

fn write_text(to: &mut fmt::Formatter, text: &str) -> fmt::Result {
    to.write_str("\"")?;
    for sign in text.chars() {
        match sign {
            '"' | '\\' => write!(to, "\\{sign}")?,
            sign if sign.is_control() => write!(to, "\\u{:04x}", sign as u32)?,
            sign => write!(to, "{sign}")?,
        }
    }
    to.write_str("\"")
}

fn number(number: impl Into<u64>) -> Value {
    Value::Number(number.into())
}

/// An image with all its cards, or with one.
pub fn image(image: &Image, one: Option<Card>) -> String {
    let cards: Vec<Value> = match one {
        Some(one) => vec![card(image, &one)],
        None => image.cards().map(|one| card(image, &one)).collect(),
    };
    let map = Value::Map(vec![
        ("version", number(image.version() as u8)),
        ("count", number(image.count())),
        ("room", number(image.room())),
        ("cards", Value::List(cards)),
    ]);
    format!("{map}\n")
}

fn card(image: &Image, card: &Card) -> Value {
    let (pair, mark) = (card.pair(), card.mark());
    let mark = match mark {
        Mark::NONE => Value::Null,
        mark => Value::Map(vec![
            ("desk", number(mark.desk)),
            ("transaction", number(mark.transaction)),
        ]),
    };
    let languages = image.version().languages().iter();
    let translations = languages.map(|language| translation(card, *language));
    Value::Map(vec![
        ("card", number(card.number())),
        ("s", Value::Text(forms::stamp(pair.s))),
        ("x", Value::Text(forms::stamp(pair.x))),
        ("mark", mark),
        ("edition", number(card.edition())),
        ("original", text(card.original(), card.edition())),
        ("translations", Value::List(translations.collect())),
    ])
}

fn translation(card: &Card, language: Language) -> Value {
    let from = card.translated_from(language).unwrap_or(0);
    let behind = match behind(card, language) {
        Some(editions) => number(editions),
        None => Value::Null,
    };
    Value::Map(vec![
        ("language", number(language.number())),
        ("from", number(from)),
        ("current", Value::Bool(card.shown(language).is_ok())),
        ("behind", behind),
        (
            "text",
            text(card.translation(language).unwrap_or(&[]), from),
        ),
    ])
}

/// A text: null where none was written; as UTF-8 if it is that, else in base 16; a structured one as its steps.
fn text(bytes: &[u8], edition: u16) -> Value {
    if edition == 0 {
        return Value::Null;
    }
    match Text::read(bytes) {
        Ok(text) => Value::Map(vec![("steps", steps(&text))]),
        Err(_) => plain(bytes),
    }
}

fn plain(bytes: &[u8]) -> Value {
    match std::str::from_utf8(bytes) {
        Ok(text) => Value::Text(text.into()),
        Err(_) => {
            let digits = bytes.iter().map(|byte| format!("{byte:02x}"));
            Value::Map(vec![("hex", Value::Text(digits.collect()))])
        }
    }
}

fn steps(text: &Text) -> Value {
    let steps = text.steps.iter().map(|step| {
        Value::Map(vec![match step {
            Step::Words(words) => ("words", plain(words)),
            Step::Drop { .. } => ("drop", Value::Text(step.to_string())),
            Step::Section(text) => ("section", steps(text)),
        }])
    });
    Value::List(steps.collect())
}
