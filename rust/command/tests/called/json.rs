//! `show --json` is JSON, and says what stands in the image.

use crate::place::Place;

/// A value of JSON.
#[derive(Debug, PartialEq)]
enum Value {
    Null,
    Bool(bool),
    Number(f64),
    Text(String),
    List(Vec<Value>),
    Map(Vec<(String, Value)>),
}

impl Value {
    fn get(&self, path: &str) -> &Value {
        path.split('.').fold(self, |value, step| match value {
            Value::Map(map) => &map.iter().find(|(name, _)| name == step).expect(step).1,
            Value::List(list) => &list[step.parse::<usize>().expect("a place")],
            _ => panic!("{step} of {value:?}"),
        })
    }
}

/// Reads one value, by RFC 8259; none where there is none.
struct Reader<'a> {
    rest: &'a str,
}

impl Reader<'_> {
    fn whole(text: &str) -> Option<Value> {
        let mut reader = Reader { rest: text };
        let value = reader.value()?;
        reader.space();
        reader.rest.is_empty().then_some(value)
    }

    fn space(&mut self) {
        self.rest = self.rest.trim_start_matches([' ', '\t', '\n', '\r']);
    }

    fn takes(&mut self, word: &str) -> bool {
        self.space();
        let rest = self.rest.strip_prefix(word);
        self.rest = rest.unwrap_or(self.rest);
        rest.is_some()
    }

    fn value(&mut self) -> Option<Value> {
        match () {
            () if self.takes("null") => Some(Value::Null),
            () if self.takes("true") => Some(Value::Bool(true)),
            () if self.takes("false") => Some(Value::Bool(false)),
            () if self.takes("\"") => Some(Value::Text(self.text()?)),
            () if self.takes("[") => self.list(),
            () if self.takes("{") => self.map(),
            () => self.number(),
        }
    }

    fn number(&mut self) -> Option<Value> {
        let length = self
            .rest
            .find(|sign: char| !sign.is_ascii_digit())
            .unwrap_or(self.rest.len());
        let (digits, rest) = self.rest.split_at(length);
        self.rest = rest;
        Some(Value::Number(digits.parse().ok()?))
    }

    fn text(&mut self) -> Option<String> {
        let mut text = String::new();
        let mut signs = self.rest.chars();
        loop {
            match signs.next()? {
                '"' => break,
                '\\' => match signs.next()? {
                    sign @ ('"' | '\\' | '/') => text.push(sign),
                    'u' => {
                        let digits: String = signs.by_ref().take(4).collect();
                        text.push(char::from_u32(u32::from_str_radix(&digits, 16).ok()?)?);
                    }
                    _ => return None,
                },
                sign if (sign as u32) < 0x20 => return None,
                sign => text.push(sign),
            }
        }
        self.rest = signs.as_str();
        Some(text)
    }

    fn list(&mut self) -> Option<Value> {
        let mut list = Vec::new();
        while !self.takes("]") {
            if !list.is_empty() && !self.takes(",") {
                return None;
            }
            list.push(self.value()?);
        }
        Some(Value::List(list))
    }

    fn map(&mut self) -> Option<Value> {
        let mut map = Vec::new();
        while !self.takes("}") {
            if !map.is_empty() && !self.takes(",") {
                return None;
            }
            let named = self.takes("\"");
            let name = self.text().filter(|_| named)?;
            let value = self.takes(":").then(|| self.value())??;
            map.push((name, value));
        }
        Some(Value::Map(map))
    }
}

fn text(text: &str) -> Value {
    Value::Text(text.into())
}

#[test]
fn an_image_as_json() {
    let place = Place::new();
    place.well("make cards --cards 2 --room 64");
    place.write(
        "list",
        r#"
exclusive write original of card 0 by (1.1.0, 1.1.0) text "Drop \"at\"\n205\x01\x7f"
exclusive write translation of card 0 by (1.1.0, 1.1.0) edition 1 text "Tøm\xff"
exclusive write original of card 0 by (1.1.0, 1.1.0) next (5, 7) text "Drop \"at\"\n205\x01\x7f"
exclusive write original of card 1 by (1.1.0, 1.1.0) steps (words "Drop at", section (drop 205.0 C))
"#,
    );
    place.well("send cards list");
    let json = Reader::whole(&place.well("show cards --json")).expect("it is JSON");
    assert_eq!(json.get("version"), &Value::Number(1.0));
    assert_eq!(
        json.get("cards.0.original"),
        &text("Drop \"at\"\n205\u{1}\u{7f}")
    );
    assert_eq!(json.get("cards.0.mark.desk"), &Value::Number(5.0));
    assert_eq!(
        json.get("cards.0.translations.0.behind"),
        &Value::Number(1.0)
    );
    assert_eq!(
        json.get("cards.0.translations.0.current"),
        &Value::Bool(false)
    );
    assert_eq!(
        json.get("cards.0.translations.0.text.hex"),
        &text("54c3b86dff")
    );
    assert_eq!(
        json.get("cards.1.original.steps.1.section.0.drop"),
        &text("205.0 C")
    );
    assert_eq!(json.get("cards.1.translations.0.text"), &Value::Null);
    assert_eq!(json.get("cards.1.mark"), &Value::Null);
    let one = Reader::whole(&place.well("show cards --json --card 1")).expect("it is JSON");
    assert_eq!(one.get("cards.0.card"), &Value::Number(1.0));
}

#[test]
fn any_text_is_in_json() {
    let place = Place::new();
    let mut random = second::random::Random::new(43);
    place.well("make cards --cards 64 --room 32 --version 2");
    let mut list = String::new();
    for card in 0..64 {
        let length = random.index(33);
        let bytes = random.bytes(length);
        let signs: String = (0..random.index(10))
            .map(|_| random.pick(&['"', '\\', 'ø', '\u{2028}', '\n', '\u{1}']))
            .collect();
        let bytes = if random.one_in(2) {
            &bytes
        } else {
            signs.as_bytes()
        };
        list += &format!(
            "exclusive write original of card {card} by (1.1.0, 1.1.0) text {}\n",
            forms::quoted(bytes)
        );
    }
    place.write("list", list);
    place.well("send cards list");
    assert!(Reader::whole(&place.well("show cards --json")).is_some());
    assert_eq!(Reader::whole("{\"a\": [1,]}"), None);
    assert_eq!(Reader::whole("\"\n\""), None);
}
