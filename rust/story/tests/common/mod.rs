//! Random stories, and a small reader of SVG.

#![allow(dead_code)] // each test uses a part

use second::random::Random;

/// Texts of cards.
const TEXTS: [&str; 8] = [
    "text \"\"",
    "text \"205\"",
    "text \"Tøm ved 205 C\"",
    "text \"\\xff\\x00\\\"\\\\\"",
    "text \"a text that is longer than the room of any card here, with 205 C in it\"",
    "steps (words \"Drop at\", drop 205.0 C)",
    "steps (section (words \"Charge\", drop 190.0 C), section (), drop 401.0 F)",
    "text \"<svg>&amp;\"",
];

fn stamp(random: &mut Random) -> String {
    match random.below(6) {
        0 => "none".into(),
        1 => format!(
            "{}.{}.{}",
            random.number() as u32,
            random.below(4),
            random.below(2)
        ),
        _ => format!(
            "{}.{}.{}",
            random.below(6),
            1 + random.below(3),
            random.below(2)
        ),
    }
}

fn pair(random: &mut Random) -> String {
    format!("({}, {})", stamp(random), stamp(random))
}

fn desk(random: &mut Random) -> (u64, u64) {
    (1 + random.below(3), random.below(2))
}

/// A pair of a desk's own.
fn own(random: &mut Random, (desk, start): (u64, u64)) -> String {
    let [s, x] = [0; 2].map(|_: u64| format!("{}.{desk}.{start}", random.below(5)));
    format!("({s}, {x})")
}

fn mark(random: &mut Random, word: &str) -> String {
    match random.one_in(3) {
        true => format!(" {word} ({}, {})", random.below(3), random.below(3)),
        false => String::new(),
    }
}

fn command(random: &mut Random, four: bool) -> String {
    let card = random.pick(&[0, 0, 0, 1, 1, 2, 65_535]);
    let by = match random.one_in(3) {
        true => pair(random),
        false => {
            let desk = desk(random);
            own(random, desk)
        }
    };
    let opening = match random.one_in(4) {
        true => format!(" opening {}", pair(random)),
        false => String::new(),
    };
    let marks = mark(random, "expected") + &mark(random, "next");
    let mode = random.pick(&["shared", "exclusive", "exclusive"]);
    let language = match four {
        true => format!(" in language {}", random.below(4)),
        false => String::new(),
    };
    let (act, rest) = match random.below(6) {
        0 => ("read original".into(), String::new()),
        1 => (format!("read translation{language}"), String::new()),
        2 => ("verify".into(), String::new()),
        3 => {
            let text = format!(" edition {} {}", random.below(4), random.pick(&TEXTS));
            (format!("write translation{language}"), text)
        }
        _ => ("write original".into(), format!(" {}", random.pick(&TEXTS))),
    };
    format!("{mode} {act} of card {card} by {by}{opening}{marks}{rest}")
}

fn record(random: &mut Random) -> String {
    match random.below(4) {
        0 => format!("begin {}", random.below(5)),
        1 => format!("commit {}", random.below(5)),
        2 => format!(
            "synced card {} transaction {}",
            random.below(3),
            random.below(5)
        ),
        _ => {
            let side = random.pick(&["original", "translation"]);
            format!(
                "update {side} of card {} {}",
                random.below(3),
                random.pick(&TEXTS)
            )
        }
    }
}

fn line(random: &mut Random, four: bool) -> String {
    let (number, start) = desk(random);
    let who = format!("desk {number}.{start}");
    let card = random.below(3);
    match random.below(18) {
        0 => format!("# words {}", random.number()),
        1 => format!("name desk {number} \"Desk <{}> & more\"", random.below(100)),
        2 => {
            let mode = random.pick(&["shared", "exclusive"]);
            format!(
                "{who} asks {mode} for card {card} by {}",
                own(random, (number, start))
            )
        }
        3 => format!(
            "{who} upgrades for card {card} by {}",
            own(random, (number, start))
        ),
        4 => format!("{who} leaves card {card}"),
        5 => {
            let numbers = [0; 4].map(|_| random.pick(&["0", "30", "0.5", "-1", "1e9", "nan"]));
            let [period, drift, begin, now] = numbers;
            format!("{who} lapses for card {card} period {period} drift {drift} begin {begin} now {now}")
        }
        6 => format!(
            "queue for card {card} begins with {} places",
            1 + random.below(32)
        ),
        7 => format!("{who} goes down"),
        8 => format!("{who} falls silent"),
        9 => format!("{who} starts"),
        10 => format!(
            "{who} recovers card 0 by {} card 1 by {}",
            pair(random),
            pair(random)
        ),
        11 | 12 => format!("{who} logs {}", record(random)),
        13 => format!(
            "{who} logs {} cut after {}",
            record(random),
            random.below(15)
        ),
        14 => {
            let bytes = random.bytes(3);
            format!("bytes {:02x} {:02x} {:02x}", bytes[0], bytes[1], bytes[2])
        }
        _ => command(random, four),
    }
}

/// A story as text.
pub fn any_story(random: &mut Random) -> String {
    let mut four = random.one_in(3);
    let head = match (four, random.one_in(3)) {
        (true, _) => "cards 2 room 32 version 2\n",
        (false, true) => {
            "cards 2 room 32\ncard 0\n  pair (2.2.0, 2.2.0)\n  original edition 2 text \"205\"\n  translation from 1 text \"401\"\n"
        }
        (false, false) => "cards 2 room 32\n",
    };
    let mut text = format!("# A story <of> \"desks\" & cards\n{head}");
    let most = if random.one_in(10) { 90 } else { 14 };
    for _ in 0..random.below(most) {
        if random.one_in(20) {
            text.push_str("store converts to version 2\n");
            four = true;
        }
        text.push_str(&line(random, four));
        text.push('\n');
    }
    text
}

/// An element of a picture: its name and its attributes.
#[derive(Clone, Debug, Default, PartialEq)]
pub struct Element {
    pub name: String,
    pub attributes: Vec<(String, String)>,
    /// The text in it.
    pub text: String,
    /// Where its groups put it.
    pub moved: (i32, i32),
}

impl Element {
    pub fn get(&self, name: &str) -> &str {
        let found = self.attributes.iter().find(|(other, _)| other == name);
        found.map_or("", |(_, value)| value)
    }

    pub fn number(&self, name: &str) -> i32 {
        self.get(name)
            .parse()
            .unwrap_or_else(|_| panic!("{name} of {self:?}"))
    }

    /// Left, upper, right and lower end of a rectangle.
    pub fn sides(&self) -> [i32; 4] {
        let (x, y) = (
            self.number("x") + self.moved.0,
            self.number("y") + self.moved.1,
        );
        [x, y, x + self.number("width"), y + self.number("height")]
    }
}

/// The elements of a picture, in order; it panics where that is no XML.
pub fn elements(svg: &str) -> Vec<Element> {
    let mut elements: Vec<Element> = Vec::new();
    let mut open: Vec<(String, (i32, i32))> = Vec::new();
    let mut rest = svg;
    while let Some((text, more)) = rest.split_once('<') {
        assert!(!text.contains('>'), "`>` in {text:?}");
        entities(text);
        if let Some(last) = elements.last_mut() {
            last.text.push_str(text.trim_end_matches('\n'));
        }
        let (tag, more) = more.split_once('>').expect("a tag is closed");
        rest = more;
        if let Some(name) = tag.strip_prefix('/') {
            let (last, _) = open.pop().expect("an element is open");
            assert_eq!(last, name);
            continue;
        }
        let single = tag.ends_with('/');
        let element = element(
            tag.trim_end_matches('/'),
            open.last().map_or((0, 0), |last| last.1),
        );
        if !single {
            open.push((element.name.clone(), element.moved));
        }
        elements.push(element);
    }
    assert!(
        rest.trim().is_empty() && open.is_empty(),
        "{rest:?} {open:?}"
    );
    elements
}

/// Every `&` begins an entity.
fn entities(text: &str) {
    for part in text.split('&').skip(1) {
        let known = ["amp;", "lt;", "gt;", "quot;"];
        assert!(
            known.iter().any(|entity| part.starts_with(entity)),
            "{text:?}"
        );
    }
    let control = |sign: char| sign.is_control() && sign != '\n';
    assert!(!text.contains(control), "{text:?}");
}

fn element(tag: &str, moved: (i32, i32)) -> Element {
    let (name, mut rest) = tag.split_once(' ').unwrap_or((tag, ""));
    let mut element = Element {
        name: name.into(),
        moved,
        ..Element::default()
    };
    while let Some((name, more)) = rest.split_once("=\"") {
        let (value, more) = more.split_once('"').expect("a value is closed");
        entities(value);
        element.attributes.push((name.trim().into(), value.into()));
        rest = more;
    }
    assert!(rest.trim().is_empty(), "{tag}");
    if let Some(moves) = element.get("transform").strip_prefix("translate(") {
        let (x, y) = moves
            .trim_end_matches(')')
            .split_once(' ')
            .expect("two numbers");
        let (x, y): (i32, i32) = (x.parse().unwrap(), y.parse().unwrap());
        element.moved = (moved.0 + x, moved.1 + y);
    }
    element
}
