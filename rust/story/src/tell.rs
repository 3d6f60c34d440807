//! What happened, in words.

use std::fmt::{self, Write};

use lupaniele::{DeskId, Language, Mark, Number, Pair, Text};

use crate::scene::{Change, Judged, Scene, Standing, Translated, Waiting};
use crate::{Event, Played, Story};

impl fmt::Display for Translated {
    fn fmt(&self, to: &mut fmt::Formatter) -> fmt::Result {
        match self {
            Translated::Nothing => to.write_str("nothing yet"),
            Translated::Not => to.write_str("not translated"),
            Translated::Behind(1) => to.write_str("behind by one edition"),
            Translated::Behind(editions) => write!(to, "behind by {editions} editions"),
            Translated::Current => to.write_str("current"),
        }
    }
}

impl fmt::Display for Standing {
    /// `edition 2, translation current`; of several languages each.
    fn fmt(&self, to: &mut fmt::Formatter) -> fmt::Result {
        match &self.translations[..] {
            _ if self.edition == 0 => to.write_str("nothing yet")?,
            [one @ Translated::Not] => write!(to, "edition {}, {one}", self.edition)?,
            [one] => write!(to, "edition {}, translation {one}", self.edition)?,
            several => {
                write!(to, "edition {}", self.edition)?;
                several_words(to, several)?;
            }
        }
        match self.mark {
            Mark::NONE => Ok(()),
            mark => write!(to, ", mark {mark}"),
        }
    }
}

/// Translations in words, those side by side that stand alike together.
fn several_words(to: &mut fmt::Formatter, several: &[Translated]) -> fmt::Result {
    let mut first = 0;
    for alike in several.chunk_by(|one, next| one == next) {
        let (one, last) = (alike[0], first + alike.len() - 1);
        match alike.len() {
            1 => write!(to, ", language {first} {one}")?,
            2 => write!(to, ", languages {first} and {last} {one}")?,
            _ => write!(to, ", languages {first} to {last} {one}")?,
        }
        first = last + 1;
    }
    Ok(())
}

/// Who stands in a queue, in words.
fn queue_words(queue: &Waiting) -> String {
    if queue.is_empty() {
        return "nobody stands in the queue".into();
    }
    let standing: Vec<String> = queue
        .iter()
        .map(|(mode, desk)| format!("{desk} {mode}"))
        .collect();
    format!("in the queue: {}", standing.join(", "))
}

/// A card's text: its steps if it is structured, else in quotes.
fn text_words(text: &[u8]) -> String {
    match Text::read(text) {
        Ok(_) => forms::payload(text),
        Err(_) => forms::quoted(text),
    }
}

/// Which text of a card, in words.
fn side_words(language: Option<Language>) -> String {
    match language {
        None => "original".into(),
        Some(Language::First) => "translation".into(),
        Some(language) => format!("translation in {language}"),
    }
}

impl Scene {
    /// What came of it, in words; empty where there is nothing to say.
    fn answered(&self) -> String {
        match self {
            Scene::Judged(judged) => judged_words(judged),
            Scene::Asked {
                number,
                holds,
                largest,
                queue,
                ..
            } => {
                let answer = asked_words(*number, *holds, *largest);
                format!("{answer}; {}", queue_words(queue))
            }
            Scene::Left { number, queue, .. } => {
                format!("{}; {}", forms::number(*number), queue_words(queue))
            }
            Scene::Logged {
                number, records, ..
            } => {
                let has = match records {
                    1 => "1 record".into(),
                    records => format!("{records} records"),
                };
                format!("{}; the log has {has}", forms::number(*number))
            }
            Scene::Recovered {
                number,
                line,
                changes,
                ..
            } => recovered_words(*number, *line, changes),
            Scene::Converted { number, .. } => forms::number(*number),
            _ => String::new(),
        }
    }
}

/// A queue's answer to one who asks.
fn asked_words(number: Number, holds: bool, largest: Pair) -> String {
    let told = forms::number(number);
    match number {
        Number::Accepted if holds => format!("{told}, and holds the lock"),
        Number::Accepted => format!("{told}, and waits"),
        Number::PairDenied => format!("{told}: the largest pair there is {}", forms::pair(largest)),
        _ => told,
    }
}

fn judged_words(judged: &Judged) -> String {
    let mut words = forms::number(judged.answer.number);
    if !judged.because.is_empty() {
        let _ = write!(words, ": {}", judged.because);
    }
    if judged.answer.number != Number::Accepted {
        return words;
    }
    if judged.command().is_some_and(|command| is_read(&command)) {
        let _ = write!(words, ", shows {}", text_words(&judged.shown));
    }
    if judged.after != judged.before {
        let card = judged.session().map_or(0, |session| session.card);
        if let Some(after) = &judged.after {
            let _ = write!(words, "; card {card}: {after}");
        }
    }
    words
}

pub(crate) fn is_read(command: &lupaniele::Command) -> bool {
    use lupaniele::Action;
    matches!(
        command.action,
        Action::ReadOriginal | Action::ReadTranslation(_)
    )
}

fn recovered_words(number: Number, line: usize, changes: &[Change]) -> String {
    let mut words = forms::number(number);
    if number != Number::Accepted {
        let _ = write!(words, " at record {line}");
    }
    for change in changes {
        let (side, text) = (side_words(change.language), text_words(&change.text));
        let _ = write!(words, "; card {}: {side} {text}", change.card);
    }
    if changes.is_empty() {
        words.push_str("; nothing is written");
    }
    words
}

impl fmt::Display for Scene {
    fn fmt(&self, to: &mut fmt::Formatter) -> fmt::Result {
        match (self, self.event()) {
            (Scene::Said(words), _) => to.write_str(words)?,
            (_, event) => event.map_or(Ok(()), |event| event.fmt(to))?,
        }
        match &self.answered()[..] {
            "" => Ok(()),
            answer => write!(to, ": {answer}"),
        }
    }
}

/// A line of a story, with the name of its desk in front of its number.
fn named(played: &Played, event: &Event, scene: &Scene) -> String {
    let line = event.to_string();
    let Some(DeskId { desk, start }) = scene.desk().filter(|desk| desk.desk != 0) else {
        return line;
    };
    let who = format!("desk {desk}.{start}");
    let (who, named) = match played.names.get(&desk) {
        Some(name) => (format!("{name}, {who}"), ","),
        None => (who, ""),
    };
    match line.strip_prefix(&format!("desk {desk}.{start} ")) {
        Some(rest) => format!("{who}{named} {rest}"),
        None => format!("{who}: {line}"),
    }
}

/// The story step by step.
pub(crate) fn told(story: &Story, played: &Played) -> String {
    let mut text = String::new();
    if let Some(title) = &story.title {
        let _ = writeln!(text, "{title}\n");
    }
    let steps = played.scenes.len().to_string().len().max(2);
    let indent = steps + 3;
    let mut scenes = (1..).zip(&played.scenes);
    let mut notes: Vec<&str> = Vec::new();
    for (_, event) in &story.events {
        if let Event::Note(words) = event {
            notes.push(words);
        }
        if !event.is_step() {
            continue;
        }
        let Some((step, scene)) = scenes.next() else {
            break;
        };
        if !notes.is_empty() {
            let gap = if text.ends_with("\n\n") { "" } else { "\n" };
            let _ = writeln!(text, "{gap}{}", forms::folded(&notes.join(" "), 0));
            notes.clear();
        }
        let line = named(played, event, scene);
        let _ = writeln!(text, "{step:>steps$}   {}", forms::folded(&line, indent));
        for answer in answers(scene) {
            let _ = writeln!(text, "{:indent$}{}", "", forms::folded(&answer, indent));
        }
    }
    text.push_str(&at_the_end(played));
    text
}

/// What came of a step, and of a refusal what may be done now.
fn answers(scene: &Scene) -> Vec<String> {
    let mut answers = vec![scene.answered()];
    if let Some(number) = scene.number().filter(|number| *number != Number::Accepted) {
        answers.push(number.advice().to_string());
    }
    answers.retain(|answer| !answer.is_empty());
    answers
}

/// The cards at the end that are not as in a fresh store, with their texts.
fn at_the_end(played: &Played) -> String {
    let mut text = String::from("\nAt the end\n");
    let fresh = text.len();
    for card in played.image.cards() {
        let standing = Standing::from(card);
        if standing.edition == 0 && standing.mark == Mark::NONE {
            continue;
        }
        let line = format!("card {}: {standing}", card.number());
        let _ = writeln!(text, "{}", forms::folded(&line, 0));
        if standing.edition > 0 {
            let _ = writeln!(text, "  original {}", text_words(card.original()));
        }
        for language in Language::ALL {
            let from = card.translated_from(language).filter(|from| *from != 0);
            let Some((from, translation)) = from.zip(card.translation(language)) else {
                continue;
            };
            let (side, words) = (side_words(Some(language)), text_words(translation));
            let _ = writeln!(text, "  {side} of edition {from} {words}");
        }
    }
    if text.len() == fresh {
        text.push_str("no card has a text\n");
    }
    text
}
