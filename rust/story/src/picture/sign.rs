//! What is drawn of a scene: signs, each in a row, with words below it.

use lupaniele::{Action, Command, Language, Mark, Mode, Number, Record, Side, Version};

use super::label::label;
use super::svg::width_of;
use crate::scene::{Change, Judged, Scene};

/// Where a sign stands.
#[derive(Clone, Copy, Debug, PartialEq, Eq, PartialOrd, Ord)]
pub enum Row {
    /// In a desk's lane, in the row of a card.
    Card(u16, u16),
    /// In a desk's lane, beside its log.
    Log(u16),
    /// In a desk's lane, wherever that begins.
    Desk(u16),
    /// At a card's queue.
    Queue(u16),
    /// In the store.
    Store,
}

/// The form of a sign.
#[derive(Clone, Debug, PartialEq, Eq)]
pub enum Shape {
    /// An accepted command, by its letter; a write has corners.
    Done {
        letter: String,
        card: u16,
        write: bool,
    },
    /// A refused command, by its number; its letter stands below, if it has one.
    Refused {
        number: Number,
        letter: Option<String>,
    },
    /// Words in a frame; a mode's frame where one is given.
    Pill { words: String, mode: Option<Mode> },
    /// A record whose append was cut.
    Struck { words: String },
    /// The power fails, through the whole lane.
    Flash,
}

/// A sign.
#[derive(Clone, Debug, PartialEq, Eq)]
pub struct Sign {
    /// Its row.
    pub row: Row,
    /// Its form.
    pub shape: Shape,
    /// The words below it.
    pub below: Vec<String>,
    /// Why it was refused, if it was: it is then red.
    pub refused: Option<Number>,
}

/// The size of the words below a sign, and of those in a frame.
pub const BELOW: i32 = 10;
/// See [`BELOW`].
pub const INSIDE: i32 = 10;

impl Sign {
    fn new(row: Row, shape: Shape) -> Sign {
        Sign {
            row,
            shape,
            below: Vec::new(),
            refused: None,
        }
    }

    /// Words in a frame.
    fn pill(row: Row, words: impl Into<String>) -> Sign {
        let words = words.into();
        Sign::new(row, Shape::Pill { words, mode: None })
    }

    /// The same sign with its answer: red if that is a refusal, whose number then stands first below it.
    fn answered(mut self, number: Number) -> Sign {
        self.refused = Some(number).filter(|number| *number != Number::Accepted);
        let told = self.refused.filter(|number| *number != Number::AppendCut);
        if let Some(number) = told {
            self.below.insert(0, u8::from(number).to_string());
        }
        self
    }

    /// How wide it is.
    pub fn wide(&self) -> i32 {
        let shape = match &self.shape {
            Shape::Done { letter, .. } => width_of(letter, 11).max(10) + 10,
            Shape::Refused { .. } => 24,
            Shape::Pill { words, .. } | Shape::Struck { words } => width_of(words, INSIDE) + 12,
            Shape::Flash => 20,
        };
        let below = self.below.iter().map(|line| width_of(line, BELOW)).max();
        shape.max(below.unwrap_or(0))
    }
}

/// How much room there is for words: signs in a line, and lines.
#[derive(Clone, Copy, Debug, PartialEq, Eq)]
pub struct Room {
    /// The signs in a line.
    pub wide: usize,
    /// The lines.
    pub lines: usize,
}

/// The letter of a command: small reads, large writes, v verifies; a language of version 2 behind it.
pub fn letter(version: Version, action: &Action) -> String {
    let of = |letter: &str, language: Language| match version {
        Version::One => letter.to_string(),
        Version::Two => format!("{letter}{}", language.number()),
    };
    match action {
        Action::ReadOriginal => "o".into(),
        Action::ReadTranslation(language) => of("t", *language),
        Action::WriteOriginal(_) => "O".into(),
        Action::WriteTranslation { language, .. } => of("T", *language),
        Action::Verify => "v".into(),
    }
}

/// What an accepted command shows below its sign: the text that it wrote or read, or what it does to the mark.
fn of_done(judged: &Judged, command: &Command, room: Room) -> Vec<String> {
    let text = match command.action {
        Action::WriteOriginal(text) | Action::WriteTranslation { text, .. } => text,
        Action::ReadOriginal | Action::ReadTranslation(_) => &judged.shown[..],
        Action::Verify => &[][..],
    };
    let mut below = label(text, room.wide, room.lines);
    match (command.expected, command.next) {
        (Mark::NONE, Mark::NONE) => {}
        (Mark::NONE, _) => below.push("marks".into()),
        (_, Mark::NONE) => below.push("releases".into()),
        _ => {}
    }
    below
}

fn of_judged(judged: &Judged, room: Room) -> Sign {
    let number = judged.answer.number;
    let Some(command) = judged.command() else {
        let letter = None;
        return Sign {
            below: vec!["bytes".into()],
            refused: Some(number),
            ..Sign::new(Row::Desk(0), Shape::Refused { number, letter })
        };
    };
    let row = Row::Card(command.desk_id().desk, command.card);
    let letter = letter(judged.version, &command.action);
    let written = match command.action {
        Action::WriteOriginal(text) | Action::WriteTranslation { text, .. } => Some(text),
        _ => None,
    };
    if number == Number::Accepted {
        let shape = Shape::Done {
            letter,
            card: command.card,
            write: written.is_some(),
        };
        return Sign {
            below: of_done(judged, &command, room),
            ..Sign::new(row, shape)
        };
    }
    let text = written.map(|text| label(text, room.wide, room.lines));
    let below = [letter.clone()].into_iter().chain(text.unwrap_or_default());
    let letter = Some(letter);
    Sign {
        below: below.collect(),
        refused: Some(number),
        ..Sign::new(row, Shape::Refused { number, letter })
    }
}

fn of_record(desk: u16, (kind, body): (u8, &[u8]), number: Number, room: Room) -> Sign {
    let (words, below) = match Record::parse(kind, body) {
        Some(Record::Begin(transaction)) => (format!("begin {transaction}"), Vec::new()),
        Some(Record::Commit(transaction)) => (format!("commit {transaction}"), Vec::new()),
        Some(Record::Synced { card, .. }) => ("synced".into(), vec![format!("card {card}")]),
        Some(Record::Update { card, side, text }) => {
            let letter = if side == Side::Original { "O" } else { "T" };
            let mut below = vec![format!("card {card} {letter}")];
            below.extend(label(text, room.wide, room.lines));
            ("update".into(), below)
        }
        None => (format!("kind {kind}"), Vec::new()),
    };
    let shape = match number {
        Number::AppendCut => Shape::Struck { words },
        _ => Shape::Pill { words, mode: None },
    };
    let sign = Sign {
        below,
        ..Sign::new(Row::Log(desk), shape)
    };
    sign.answered(number)
}

/// The signs of a recovery: its word, and each text that it wrote.
fn of_recovery(
    desk: u16,
    number: Number,
    line: usize,
    changes: &[Change],
    room: Room,
) -> Vec<Sign> {
    let mut sign = Sign::pill(Row::Log(desk), "recovery");
    if number != Number::Accepted {
        sign.below.push(format!("record {line}"));
    }
    let mut signs = vec![sign.answered(number)];
    signs.extend(changes.iter().map(|change| {
        let shape = Shape::Done {
            letter: if change.language.is_none() { "O" } else { "T" }.into(),
            card: change.card,
            write: true,
        };
        Sign {
            below: label(&change.text, room.wide, room.lines),
            ..Sign::new(Row::Card(desk, change.card), shape)
        }
    }));
    signs
}

/// What a desk does at a queue.
fn at_queue(scene: &Scene) -> Option<Sign> {
    Some(match scene {
        Scene::Asked {
            desk,
            card,
            mode,
            upgrade,
            number,
            holds,
            ..
        } => {
            let shape = Shape::Pill {
                words: if *upgrade { "upgrades" } else { "asks" }.into(),
                mode: Some(*mode),
            };
            let mut sign = Sign::new(Row::Card(desk.desk, *card), shape);
            if *number == Number::Accepted {
                sign.below = vec![if *holds { "holds" } else { "waits" }.into()];
            }
            sign.answered(*number)
        }
        Scene::Left {
            desk,
            card,
            lease,
            number,
            ..
        } => {
            let words = if lease.is_some() { "lapses" } else { "leaves" };
            Sign::pill(Row::Card(desk.desk, *card), words).answered(*number)
        }
        Scene::QueueBegan { card, .. } => Sign::pill(Row::Queue(*card), "begins"),
        _ => return None,
    })
}

fn of_conversion(number: Number) -> Sign {
    let words = match number {
        Number::Accepted => "version 2".into(),
        number => format!("version 2: {}", u8::from(number)),
    };
    let refused = Some(number).filter(|number| *number != Number::Accepted);
    Sign {
        refused,
        ..Sign::pill(Row::Store, words)
    }
}

/// What is drawn of a scene.
pub fn signs(scene: &Scene, room: Room) -> Vec<Sign> {
    let sign = match scene {
        Scene::Judged(judged) => of_judged(judged, room),
        Scene::Logged {
            desk,
            kind,
            body,
            cut,
            number,
            ..
        } => {
            let mut sign = of_record(desk.desk, (*kind, body), *number, room);
            if let Some(stores) = cut {
                sign.below.insert(0, format!("cut at {stores}"));
            }
            sign
        }
        Scene::Down { desk } => Sign::new(Row::Desk(desk.desk), Shape::Flash),
        Scene::Silent { desk } => Sign::pill(Row::Desk(desk.desk), "silent"),
        Scene::Started { desk } => {
            Sign::pill(Row::Desk(desk.desk), format!("start {}", desk.start))
        }
        Scene::Recovered {
            desk,
            number,
            line,
            changes,
            ..
        } => return of_recovery(desk.desk, *number, *line, changes, room),
        Scene::Converted { number, .. } => of_conversion(*number),
        other => return at_queue(other).into_iter().collect(),
    };
    vec![sign]
}
