use lupaniele::{Action, Answer, Card, Command, Mark, Mode, Number, Pair, Stamp, Version};

use crate::{mark, pair, stamp};

/// An answer of the store in words.
#[derive(Clone, Debug, PartialEq, Eq)]
pub struct Told {
    /// Number, name and rule, as in `3 stale (rule 4.2)`.
    pub short: String,
    /// What is stored against what was sent; nothing where the answer is one of acceptance.
    pub because: String,
    /// What a desk may do now.
    pub now: &'static str,
}

/// A number with its name and rule.
///
/// ```
/// use lupaniele::Number;
/// assert_eq!(forms::number(Number::Stale), "3 stale (rule 4.2)");
/// assert_eq!(forms::number(Number::Accepted), "0 accepted");
/// ```
#[must_use]
pub fn number(number: Number) -> String {
    match number {
        Number::Accepted => "0 accepted".into(),
        number => format!("{} {number} (rule {})", u8::from(number), number.rule()),
    }
}

/// An answer in words: `before` is the card as it stood when the command came.
///
/// ```
/// use lupaniele::{Command, Image, Pair, Stamp, Version};
/// let mut image = Image::make(Version::One, 1, 16)?;
/// let by = |t| Pair::new(Stamp::new(t, 1, 0), Stamp::new(t, 1, 0));
/// image.answer(&Command::write_original(0, b"205").exclusive(by(2)), &mut [])?.accepted()?;
///
/// let late = Command::write_original(0, b"207").exclusive(by(1)).to_bytes(Version::One)?;
/// let before = image.clone();
/// let answer = image.answer_bytes(&late, &mut []);
/// let told = forms::told(Version::One, &late, &answer, before.card(0).as_ref());
/// assert_eq!(told.short, "3 stale (rule 4.2)");
/// assert_eq!(told.because, "it relies on s 1.1.0 and x 1.1.0, and s 2.1.0 and x 2.1.0 are stored");
/// # Ok::<(), Box<dyn std::error::Error>>(())
/// ```
#[must_use]
pub fn told(version: Version, command: &[u8], answer: &Answer, before: Option<&Card>) -> Told {
    let number = answer.number;
    let because = match (Command::parse(version, command), before) {
        _ if number == Number::Accepted => String::new(),
        (Err(why), _) => why.to_string(),
        (Ok(command), _) if number == Number::Malformed => malformed(&command),
        (Ok(command), Some(card)) => because(&command, answer, card),
        (Ok(command), None) => format!("it names card {}", command.card),
    };
    Told {
        short: self::number(number),
        because,
        now: number.advice(),
    }
}

/// Why, by the card as it stood: what was sent against what is stored.
fn because(command: &Command, answer: &Answer, card: &Card) -> String {
    match answer.number {
        Number::Stale => stale(command, card.pair()),
        Number::TooFar => too_far(command.update_pair(), card.pair()),
        Number::MarkDiffers => marked(command.expected, card.mark()),
        Number::PayloadLong => match command.action {
            Action::WriteOriginal(text) | Action::WriteTranslation { text, .. } => {
                format!(
                    "its text has {} bytes, and there is room for {}",
                    text.len(),
                    card.room()
                )
            }
            _ => String::new(),
        },
        Number::EditionWrong => editions(command, answer),
        Number::EditionsSpent => format!("edition {} is stored, the last", answer.edition),
        Number::ReplyShort => "the text that stands is longer than the buffer for it".into(),
        number => number.meaning().into(),
    }
}

/// The stamps that are older than the stored ones, as far as the mode looks at them (rule 4.2).
fn stale(command: &Command, stored: Pair) -> String {
    let sent = command.verifier;
    let sides = [
        ("s", sent.s, stored.s, command.mode == Mode::Exclusive),
        ("x", sent.x, stored.x, true),
    ];
    let older: Vec<_> = sides
        .into_iter()
        .filter(|(_, sent, stored, looked_at)| *looked_at && sent < stored)
        .collect();
    let named = |of: fn(&(&str, Stamp, Stamp, bool)) -> Stamp| {
        let stamps = older.iter().map(|side| match of(side) {
            Stamp::NONE => format!("no {}", side.0),
            stamp => format!("{} {stamp}", side.0),
        });
        stamps.collect::<Vec<_>>().join(" and ")
    };
    let are = if older.len() == 1 { "is" } else { "are" };
    let (sent, stored) = (named(|side| side.1), named(|side| side.2));
    format!("it relies on {sent}, and {stored} {are} stored")
}

fn too_far(sent: Pair, stored: Pair) -> String {
    format!(
        "it would raise the pair to {}, and {} is stored",
        pair(sent),
        pair(stored)
    )
}

fn marked(expected: Mark, stored: Mark) -> String {
    let expected = match expected {
        Mark::NONE => "no mark".into(),
        expected => format!("the mark {}", mark(expected)),
    };
    match stored {
        Mark::NONE => format!("it expects {expected}, and the card bears none"),
        stored => format!(
            "it expects {expected}, and the card bears the mark of desk {}, transaction {}",
            stored.desk, stored.transaction
        ),
    }
}

fn editions(command: &Command, answer: &Answer) -> String {
    let (stands, from) = (answer.edition, answer.translated_from);
    match command.action {
        Action::WriteTranslation { edition, .. } if stands == 0 => {
            format!("it is made from edition {edition}, and there is no original yet")
        }
        Action::WriteTranslation { edition, .. } => {
            format!("it is made from edition {edition}, and edition {stands} stands")
        }
        _ if stands == 0 => "there is no original yet, nor a translation".into(),
        _ if from == 0 => format!("edition {stands} stands, and no translation of any edition"),
        _ => {
            let behind = stands.saturating_sub(from);
            format!("the translation is of edition {from}, and {stands} stands: behind by {behind}")
        }
    }
}

/// Which field keeps a command from being well formed (rule 3.3), for those that a `Command` can say.
fn malformed(command: &Command) -> String {
    let (by, update) = (command.verifier, command.update_pair());
    let own = match command.mode {
        Mode::Shared => ("shared", "s", update.s),
        Mode::Exclusive => ("exclusive", "x", update.x),
    };
    let no_desk = |stamp: &Stamp| *stamp != Stamp::NONE && stamp.desk_id().desk == 0;
    let stamps = [by.s, by.x, update.s, update.x];
    let half = |mark: Mark| (mark.desk == 0) != (mark.transaction == 0);
    let writes = matches!(
        command.action,
        Action::WriteOriginal(_) | Action::WriteTranslation { .. }
    );
    let unnamed = matches!(command.action, Action::WriteTranslation { edition: 0, .. });
    match stamps.into_iter().find(no_desk) {
        Some(bad) => format!("the stamp {} has no desk", stamp(bad)),
        None if half(command.expected) || half(command.next) => {
            "a mark has a desk and a transaction, or neither".into()
        }
        None if writes && command.mode == Mode::Shared => "a write is exclusive".into(),
        None if own.2 == Stamp::NONE => format!("a {} command needs a stamp {}", own.0, own.1),
        None if by.s > update.s || by.x > update.x => {
            format!(
                "it relies on {}, above {}, which it opens",
                pair(by),
                pair(update)
            )
        }
        None if unnamed => "a translation is made from an edition, 1 or more".into(),
        None => Number::Malformed.meaning().into(),
    }
}
