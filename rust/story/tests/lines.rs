//! Each kind of line: how it is read, what comes of it, and that it is written as it was read.

use lupaniele::{DeskId, Language, Lease, Mode, Number, Pair, Stamp, Version};
use story::{Event, Scene, Story, Translated};

const FRESH: &str = "cards 2 room 32\n";

fn read(lines: &str) -> Story {
    let text = format!("{FRESH}{lines}\n");
    Story::read(&text).unwrap_or_else(|wrong| panic!("{wrong}\n{text}"))
}

/// The events of a story, without the numbers of their lines.
fn events(story: &Story) -> Vec<Event> {
    story
        .events
        .iter()
        .map(|(_, event)| event.clone())
        .collect()
}

/// The one event of a line, which is written as it was read.
fn event(line: &str) -> Event {
    let story = read(line);
    let [event] = &events(&story)[..] else {
        panic!("{line}: one event");
    };
    assert_eq!(event.to_string(), line);
    event.clone()
}

/// The numbers of a story's steps.
fn numbers(story: &Story) -> Vec<u8> {
    let scenes = story.play().scenes;
    let numbers = scenes
        .iter()
        .map(|scene| scene.number().map_or(0, u8::from));
    numbers.collect()
}

#[test]
fn a_name() {
    let line = "name desk 7 \"Ærø, \\\"north\\\"\"";
    let name = "Ærø, \"north\"".to_string();
    assert_eq!(event(line), Event::Name { desk: 7, name });
}

#[test]
fn a_note_and_a_title() {
    let story = Story::read("# A title\ncards 1 room 16\n# two\n# notes\n").unwrap();
    assert_eq!(story.title.as_deref(), Some("A title"));
    let notes = ["two", "notes"].map(|words| Event::Note(words.into()));
    assert_eq!(events(&story), notes);
    assert_eq!(story.play().scenes, []);
}

#[test]
fn a_command() {
    let line = "exclusive write original of card 1 by (1.1.0, 1.1.0) text \"Tøm ved 205\"";
    assert!(matches!(
        event(line),
        Event::Command {
            version: Version::One,
            ..
        }
    ));
    let played = read(line).play();
    let [Scene::Judged(judged)] = &played.scenes[..] else {
        panic!("one command");
    };
    let before = judged.before.as_ref().map(|card| &card.translations[..]);
    let after = judged.after.as_ref().map(|card| &card.translations[..]);
    assert_eq!(before, Some(&[Translated::Nothing][..]));
    assert_eq!(after, Some(&[Translated::Not][..]));
    let original = played.image.card(1).map(|card| card.original().to_vec());
    assert_eq!(original, Some("Tøm ved 205".as_bytes().to_vec()));
}

#[test]
fn bytes_that_are_no_command() {
    event("bytes 03 02 00 00 00");
    assert_eq!(numbers(&read("bytes 03 02 00 00 00")), [1]);
}

#[test]
fn an_ask_an_upgrade_and_a_leave() {
    let pair = |s, x| Pair::new(s, x);
    let stamp = Stamp::new(1, 1, 0);
    let desk = DeskId::new(1, 0);
    assert_eq!(
        event("desk 1.0 asks shared for card 0 by (1.1.0, none)"),
        Event::Ask {
            desk,
            card: 0,
            mode: Mode::Shared,
            pair: pair(stamp, Stamp::NONE),
            upgrade: false
        }
    );
    assert_eq!(
        event("desk 1.0 upgrades for card 0 by (1.1.0, 1.1.0)"),
        Event::Ask {
            desk,
            card: 0,
            mode: Mode::Exclusive,
            pair: pair(stamp, stamp),
            upgrade: true
        }
    );
    assert_eq!(
        event("desk 1.0 leaves card 0"),
        Event::Leave { desk, card: 0 }
    );
    let story = read(
        "desk 1.0 asks shared for card 0 by (1.1.0, none)\n\
         desk 2.0 asks shared for card 0 by (2.2.0, none)\n\
         desk 1.0 upgrades for card 0 by (1.1.0, 1.1.0)\n\
         desk 1.0 upgrades for card 0 by (2.2.0, 1.1.0)\n\
         desk 1.0 asks shared for card 0 by (3.1.0, 1.1.0)\n\
         desk 2.0 leaves card 0\n\
         desk 2.0 leaves card 0",
    );
    assert_eq!(numbers(&story), [0, 0, 11, 0, 12, 0, 15]);
    let told = story.told();
    assert!(
        told.contains("accepted, and waits; in the queue: 2.0 shared, 1.0 exclusive"),
        "{told}"
    );
    assert!(
        told.contains("11 denied (rule 7.7): the largest pair there is (2.2.0, none);"),
        "{told}"
    );
}

#[test]
fn a_lapse() {
    let line = "desk 2.0 lapses for card 0 period 30 drift 0.5 begin 100 now 145";
    let lease = Lease {
        period: 30.0,
        drift: 0.5,
        begin: 100.0,
        now: 145.0,
    };
    let desk = DeskId::new(2, 0);
    assert_eq!(
        event(line),
        Event::Lapse {
            desk,
            card: 0,
            lease
        }
    );
    let asks = "desk 2.0 asks shared for card 0 by (2.2.0, none)";
    let early = line.replace("145", "144.99");
    let never = line.replace("30", "-1");
    let story = read(&format!("{asks}\n{never}\n{early}\n{line}\n{line}"));
    assert_eq!(numbers(&story), [0, 21, 25, 0, 15]);
}

#[test]
fn a_queue_begins() {
    let line = "queue for card 0 begins with 1 places";
    assert_eq!(event(line), Event::Queue { card: 0, places: 1 });
    let ask = |desk: u16| format!("desk {desk}.0 asks shared for card 0 by (1.{desk}.0, none)");
    let story = read(&format!(
        "{line}\n{}\n{}\n{line}\n{}",
        ask(1),
        ask(2),
        ask(2)
    ));
    assert_eq!(numbers(&story), [0, 0, 13, 0, 0]);
}

#[test]
fn records_and_a_cut() {
    for line in [
        "desk 1.0 logs begin 1",
        "desk 1.0 logs begin 1 cut after 15",
        "desk 1.0 logs update original of card 0 text \"205\"",
        "desk 1.0 logs update translation of card 0 text \"\\xff\" cut after 0",
        "desk 1.0 logs commit 4294967295",
        "desk 1.0 logs synced card 65535 transaction 1",
    ] {
        assert!(matches!(event(line), Event::Log { .. }));
    }
    let story = read(
        "desk 1.0 logs begin 1 cut after 15\n\
         desk 1.0 logs begin 1\n\
         desk 1.0 logs begin 1\n\
         desk 1.0 logs commit 1",
    );
    assert_eq!(numbers(&story), [26, 0, 23, 0]);
    assert_eq!(story.play().logs[&1].count(), 2);
}

#[test]
fn what_befalls_a_desk() {
    let desk = DeskId::new(1, 2);
    assert_eq!(event("desk 1.2 goes down"), Event::Down(desk));
    assert_eq!(event("desk 1.2 falls silent"), Event::Silent(desk));
    assert_eq!(event("desk 1.2 starts"), Event::Start(desk));
}

#[test]
fn a_recovery_tells_what_it_wrote() {
    let line = "desk 1.1 recovers card 0 by (2.1.1, 2.1.1) card 1 by (3.1.1, 3.1.1)";
    assert!(matches!(event(line), Event::Recover(_, pairs) if pairs.len() == 2));
    event("desk 1.1 recovers");
    let logs = "desk 1.0 logs begin 1\n\
                desk 1.0 logs update original of card 0 text \"205\"\n\
                desk 1.0 logs update translation of card 0 text \"401\"\n\
                desk 1.0 logs update original of card 1 text \"207\"\n\
                desk 1.0 logs commit 1";
    let story = read(&format!("{logs}\n{line}"));
    let played = story.play();
    let Some(Scene::Recovered {
        number, changes, ..
    }) = played.scenes.last()
    else {
        panic!("a recovery");
    };
    assert_eq!(*number, Number::Accepted);
    let changed: Vec<_> = changes
        .iter()
        .map(|one| (one.card, one.language, &one.text[..]))
        .collect();
    let first = Some(Language::First);
    assert_eq!(
        changed,
        [
            (0, None, &b"205"[..]),
            (0, first, b"401"),
            (1, None, b"207")
        ]
    );
    let told = story.told();
    assert!(
        told.contains("card 0: original \"205\"; card 0: translation \"401\""),
        "{told}"
    );
    // Without a pair nothing can be written, and the record is named.
    let story = read(&format!("{logs}\ndesk 1.1 recovers"));
    assert_eq!(numbers(&story)[5], 1);
    assert!(story.told().contains("at record 1"), "{}", story.told());
}

#[test]
fn a_conversion_and_commands_of_version_2() {
    assert_eq!(event("store converts to version 2"), Event::Convert);
    let story = read(
        "exclusive write original of card 0 by (1.1.0, 1.1.0) text \"205\"\n\
         store converts to version 2\n\
         exclusive write translation in language 3 of card 0 by (2.2.0, 2.2.0) edition 1 text \"401\"\n\
         shared read translation in language 3 of card 0 by (3.2.0, 2.2.0)\n\
         shared read translation in language 0 of card 0 by (3.2.0, 2.2.0)\n\
         store converts to version 2",
    );
    assert_eq!(numbers(&story), [0, 0, 0, 0, 6, 9]);
    assert_eq!(story.play().image.version(), Version::Two);
    // A store that begins as version 2 takes such commands from the first line on.
    let story = Story::read("cards 1 room 16 version 2\nshared read translation in language 3 of card 0 by (1.1.0, none)\n");
    assert_eq!(numbers(&story.unwrap()), [6]);
}

#[test]
fn a_kept_image_and_structured_texts() {
    let text = "# Kept\n\
                cards 2 room 32\n\
                card 1\n\
                \x20 pair (2.2.0, 2.2.0)\n\
                \x20 mark (5, 7)\n\
                \x20 original edition 3 steps\n\
                \x20   words \"Drop at\"\n\
                \x20   drop 205.0 C\n\
                \x20 translation from 2 text \"Tøm ved 401\"\n\
                \n\
                # Somebody reads.\n\
                shared read original of card 1 by (3.2.0, 2.2.0) expected (5, 7) next (5, 7)\n";
    let story = Story::read(text).unwrap();
    assert_eq!(story.write(), text);
    assert_eq!(numbers(&story), [0]);
    let told = story.told();
    assert!(
        told.contains("behind by one edition, mark (5, 7)"),
        "{told}"
    );
    assert!(
        told.contains("accepted, shows steps (words \"Drop at\", drop 205.0 C)"),
        "{told}"
    );
}

#[test]
fn the_programs_input() {
    let top = concat!(env!("CARGO_MANIFEST_DIR"), "/../../");
    let text = std::fs::read_to_string(format!("{top}docs/pictures/case-p.txt")).unwrap();
    let input = std::fs::read(format!("{top}crates/cards/stdin")).unwrap();
    let story = Story::read(&text).unwrap();
    assert_eq!(story.to_input().unwrap(), input);
    let back = Story::from_input(&input).unwrap();
    assert_eq!(back.to_input().unwrap(), input);
    assert_eq!(events(&back), events(&story));
    let again = Story::read(&back.write()).unwrap();
    assert_eq!((events(&again), again.image), (events(&back), back.image));
    // An image of version 2, with commands of version 2.
    let four = "cards 1 room 16 version 2\nshared read translation in language 3 of card 0 by (1.1.0, none)\nbytes 01\n";
    let story = Story::read(four).unwrap();
    let back = Story::from_input(&story.to_input().unwrap()).unwrap();
    assert_eq!(back.write(), four);
    // An image alone is a story in which nothing happens; half of one is none.
    assert_eq!(Story::from_input(&input[..80]).unwrap().events, []);
    assert!(Story::from_input(&input[..79]).is_err());
    assert!(Story::from_input(&[]).is_err());
    let wrong = read("name desk 1 \"A\"\ndesk 1.0 goes down")
        .to_input()
        .unwrap_err();
    assert_eq!((wrong.line, wrong.column), (3, 1));
}
