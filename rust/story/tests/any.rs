//! Random stories by the ten thousand: they are read, written and read back as they were, told and drawn; damaged ones
//! are told by line and column. Nothing panics.

mod common;

use common::{any_story, elements};
use second::random::Random;
use story::{Event, Story};

fn events(story: &Story) -> Vec<String> {
    let events = story.events.iter();
    events.map(|(_, event)| format!("{event:?}")).collect()
}

#[test]
fn stories_come_back_as_they_were() {
    let mut random = Random::new(34);
    let (mut steps, mut refused, mut numbers) = (0, 0, [0; 27]);
    for _ in 0..10_000 {
        let text = any_story(&mut random);
        let story = Story::read(&text).unwrap_or_else(|wrong| panic!("{wrong}\n{text}"));
        let again = Story::read(&story.write()).unwrap_or_else(|wrong| panic!("{wrong}\n{text}"));
        assert_eq!(again.title, story.title);
        assert_eq!(again.image, story.image);
        assert_eq!(events(&again), events(&story), "{text}");
        assert_eq!(again.write(), story.write());
        let played = story.play();
        steps += played.scenes.len();
        refused += story.refused();
        for number in played.scenes.iter().filter_map(|scene| scene.number()) {
            numbers[usize::from(u8::from(number))] += 1;
        }
        assert_eq!(
            played.scenes.len(),
            story
                .events
                .iter()
                .filter(|(_, event)| event.is_step())
                .count()
        );
    }
    assert!(
        steps > 50_000 && refused > 20_000,
        "{steps} steps, {refused} refused"
    );
    for number in [0, 1, 2, 3, 4, 5, 6, 9, 11, 12, 15, 17, 21, 23, 25, 26] {
        assert!(numbers[number] > 0, "{number} never came: {numbers:?}");
    }
}

#[test]
fn stories_are_told_and_drawn() {
    let mut random = Random::new(35);
    for _ in 0..10_000 {
        let text = any_story(&mut random);
        let story = Story::read(&text).unwrap_or_else(|wrong| panic!("{wrong}\n{text}"));
        let told = story.told();
        let steps = story
            .events
            .iter()
            .filter(|(_, event)| event.is_step())
            .count();
        assert!(
            told.contains(&format!("\n{steps:>2}   ")) || steps == 0,
            "{told}"
        );
        elements(&story.drawn());
    }
}

/// A text with some of its signs, words or lines changed, left out or put twice.
fn damaged(random: &mut Random, text: &str) -> String {
    let mut signs: Vec<char> = text.chars().collect();
    for _ in 0..1 + random.below(3) {
        if signs.is_empty() {
            break;
        }
        let at = random.index(signs.len());
        let long = 1 + random.index(8.min(signs.len() - at));
        match random.below(5) {
            0 => drop(signs.splice(at..at + long, [])),
            1 => {
                signs[at] = random.pick(&[
                    '"', '(', ')', ',', '.', ' ', '\n', '#', '9', 'x', '\\', 'ø', '\u{feff}', '\r',
                    '\t', '\0',
                ])
            }
            2 => {
                let part: Vec<char> = signs[at..at + long].to_vec();
                drop(signs.splice(at..at, part));
            }
            3 => signs.truncate(at),
            _ => {
                let other = random.index(signs.len());
                signs.swap(at, other);
            }
        }
    }
    signs.into_iter().collect()
}

#[test]
fn damaged_stories_are_told_by_their_place() {
    let mut random = Random::new(36);
    let (mut good, mut bad) = (0, 0);
    for _ in 0..20_000 {
        let whole = any_story(&mut random);
        let text = damaged(&mut random, &whole);
        match Story::read(&text) {
            Ok(story) => {
                good += 1;
                assert!(!story.told().is_empty());
                elements(&story.drawn());
            }
            Err(wrong) => {
                bad += 1;
                let line = text.split('\n').nth(wrong.line - 1).unwrap_or_default();
                assert!(
                    wrong.line >= 1 && wrong.line <= text.split('\n').count().max(1),
                    "{wrong}\n{text}"
                );
                let columns = line.chars().count() + 1;
                assert!((1..=columns).contains(&wrong.column), "{wrong}: {line:?}");
                assert!(!wrong.told.is_empty());
            }
        }
    }
    assert!(good > 1_000 && bad > 10_000, "{good} good, {bad} bad");
}

#[test]
fn random_bytes_are_no_story() {
    let mut random = Random::new(37);
    for _ in 0..10_000 {
        let length = random.index(200);
        let text = String::from_utf8_lossy(&random.bytes(length)).into_owned();
        assert!(Story::read(&text).is_err(), "{text:?}");
        let _ = Story::from_input(text.as_bytes());
    }
}

#[test]
fn an_input_with_any_tail_comes_back() {
    let mut random = Random::new(38);
    let fresh = Story::read("cards 1 room 16\n")
        .unwrap()
        .to_input()
        .unwrap();
    for _ in 0..10_000 {
        let length = random.index(400);
        let input = [&fresh[..], &random.bytes(length)].concat();
        let story = Story::from_input(&input).unwrap();
        assert_eq!(story.to_input().unwrap(), input);
        let again = Story::read(&story.write()).unwrap();
        let commands = |story: &Story| -> Vec<Event> {
            story
                .events
                .iter()
                .map(|(_, event)| event.clone())
                .collect()
        };
        assert_eq!(commands(&again), commands(&story));
        story.told();
    }
}
