//! The judge stops where a trace is changed: each change is one that a store, a log or a desk could make by mistake.

use std::fs;

use lupaniele::files::read_bytes;
use lupaniele::{Version, LARGEST_IMAGE};

use crate::desk::Worker;
use crate::judge::Judge;
use crate::rounds::founded;
use crate::survey::survey;
use crate::tally::{Counted, Tally};
use crate::town::{top, Town};
use crate::trace::{Line, Note, Reader};

/// The trace that two desks leave, each of which comes back once, and the image at its end.
fn traced(name: &str, version: Version) -> (Town, Vec<Line>, Vec<u8>) {
    let folder = top().join(format!("lupaniele-judged-{name}-{}", std::process::id()));
    let town = Town {
        folder,
        desks: 2,
        cards: 2,
        version,
    };
    let mut reader = founded(&town).expect("a town");
    for seed in 0..2 {
        let mut first = Worker::start(&town, 1, seed).expect("a desk");
        let mut second = Worker::start(&town, 2, seed + 7).expect("a desk");
        for _ in 0..40 {
            first.step().expect("a step");
            second.step().expect("a step");
        }
    }
    survey(&town, &mut Tally::default()).expect("files as they have to be");
    let lines = reader.more(true).expect("notes");
    let image = read_bytes(town.image(), LARGEST_IMAGE).expect("an image");
    (town, lines, image)
}

/// What the judge says of a trace; where nothing is wrong, how many commands there were.
fn judged(town: &Town, lines: &[Line], image: &[u8]) -> Result<u64, String> {
    let mut judge = Judge::new(town);
    for line in lines {
        judge.hear(line.clone())?;
    }
    judge.ended(image)?;
    judge.keeps_the_sentences()?;
    Ok(judge.tally.of(Counted::Commands))
}

/// Changes the first note that `change` takes behind a third of the trace, before the desks come back, and holds the
/// judge to stop with this rule.
fn stopped(name: &str, rule: &str, mut change: impl FnMut(&mut Line) -> bool) {
    let (town, mut lines, image) = traced(name, Version::One);
    assert!(judged(&town, &lines, &image).is_ok_and(|commands| commands > 200));
    let third = lines.len() / 3;
    let changed = lines[third..].iter_mut().any(&mut change);
    assert!(changed, "{name}: no such note");
    let told = judged(&town, &lines, &image).expect_err(name);
    assert!(told.starts_with(rule), "{name}: {told}");
    fs::remove_dir_all(&town.folder).expect("the folder is gone");
}

#[test]
fn another_answer() {
    stopped("number", "4.1", |line| match &mut line.note {
        Note::Answered { line, .. } => {
            line[0] = if line[0] == 0 { 3 } else { 0 };
            true
        }
        _ => false,
    });
    stopped("field", "4.8", |line| match &mut line.note {
        Note::Answered { line, .. } => {
            line[5] += 1;
            true
        }
        _ => false,
    });
    stopped("reply", "4.7", |line| match &mut line.note {
        Note::Answered { reply, .. } if !reply.is_empty() => {
            reply[0] ^= 1;
            true
        }
        _ => false,
    });
}

#[test]
fn another_image() {
    stopped("image", "4.4, 4.5", |line| match &mut line.note {
        Note::Sent { image, .. } => {
            image[17] ^= 1;
            true
        }
        _ => false,
    });
}

#[test]
fn an_answer_to_nobody() {
    stopped("writer", "one writer", |line| match line.note {
        Note::Answered { .. } => {
            line.desk ^= 3;
            true
        }
        _ => false,
    });
}

#[test]
fn another_log() {
    stopped("log", "11.14", |line| match &mut line.note {
        Note::Opened { log, .. } => {
            log[8_191] ^= 1;
            true
        }
        _ => false,
    });
    stopped("count", "11.11", |line| match &mut line.note {
        Note::Appended { number } => {
            *number = 24;
            true
        }
        _ => false,
    });
    stopped("holder", "16.23", |line| match line.note {
        Note::Appending { .. } => {
            line.start += 1;
            true
        }
        _ => false,
    });
}

#[test]
fn a_start_that_was_had() {
    stopped("start", "10.9", |line| match line.note {
        Note::Opened { .. } => {
            line.start = 0;
            true
        }
        _ => false,
    });
}

#[test]
fn a_transaction_told_of_otherwise() {
    stopped("told", "16.2", |line| match &mut line.note {
        Note::Told { done, .. } => {
            *done = !*done;
            true
        }
        _ => false,
    });
}

/// A command whose answer is missing happened or did not, by the image that stands then.
#[test]
fn an_answer_that_is_missing() {
    let (town, mut lines, image) = traced("missing", Version::One);
    let accepted = |line: &Line| matches!(line.note, Note::Answered { line: [0, ..], .. });
    let at = lines.iter().rposition(accepted).expect("an answer");
    lines.remove(at);
    let whole = judged(&town, &lines, &image);
    lines.truncate(at);
    // The image as the last command found it: it did not happen.
    let before = match &lines[at - 1].note {
        Note::Sent { image, .. } => image.clone(),
        other => panic!("{other:?}"),
    };
    let without = judged(&town, &lines, &before);
    assert!(whole.is_ok() && without.is_ok(), "{whole:?} {without:?}");
    let mut another = before;
    another[17] ^= 1;
    assert!(judged(&town, &lines, &another).is_err());
    fs::remove_dir_all(&town.folder).expect("the folder is gone");
}

/// A note that was cut anywhere is passed over, and those around it are read.
#[test]
fn notes_that_are_cut() {
    let (town, lines, _) = traced("cut", Version::One);
    let bytes = fs::read(town.trace()).expect("the trace");
    for cut in (1..400).step_by(7) {
        let path = town.folder.join("cut");
        fs::write(&path, [&bytes[..cut], &bytes].concat()).expect("a trace");
        let mut reader = Reader::open(&path).expect("a trace");
        let read = reader.more(true).expect("notes");
        assert!(read.ends_with(&lines), "cut at {cut}");
        assert_eq!(reader.cut + read.len() as u64 - lines.len() as u64, 1);
    }
    fs::remove_dir_all(&town.folder).expect("the folder is gone");
}

/// In version 2 a text of one language is not taken for that of another.
#[test]
fn texts_of_four_languages() {
    let (town, mut lines, image) = traced("languages", Version::Two);
    assert!(judged(&town, &lines, &image).is_ok_and(|commands| commands > 200));
    let read =
        |line: &Line| matches!(&line.note, Note::Answered { reply, .. } if reply.starts_with(b"U"));
    let at = lines.iter().position(read).expect("a text of language 1");
    if let Note::Answered { reply, .. } = &mut lines[at].note {
        reply[0] = b'V';
    }
    assert!(judged(&town, &lines, &image).is_err_and(|told| told.starts_with("4.7")));
    fs::remove_dir_all(&town.folder).expect("the folder is gone");
}
