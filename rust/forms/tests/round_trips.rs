//! What is written is read back to the same bytes, for random ones by the hundred thousand.

use lupaniele::{
    Action, Command, Contents, DEEPEST, Image, Language, Log, Mark, Mode, Number, Pair, Record,
    Side, Stamp, Step, Text, Unit, Version, agree, rooms,
};
use second::random::Random;

/// Bytes as a desk may send them: any, letters with accents, quotes and escapes, or a structured text.
fn bytes(random: &mut Random, most: usize) -> Vec<u8> {
    let length = random.index(most + 1);
    let mut bytes = match random.below(4) {
        0 => random.bytes(length),
        1 => {
            let signs = [
                "a", "ø", "\"", "\\", "\n", "\t", "x", "焙", "\u{202e}", "#", "\u{feff}", "\\x0f",
                "🔥", "\r",
            ];
            (0..length)
                .flat_map(|_| random.pick(&signs).bytes())
                .collect()
        }
        2 => (0..length)
            .map(|_| b"205 C\"\\#(),"[random.index(11)])
            .collect(),
        _ => text(random, DEEPEST).to_bytes().unwrap_or_default(),
    };
    bytes.truncate(most);
    bytes
}

/// A random tree at most so deep.
fn text(random: &mut Random, depth: usize) -> Text {
    let steps = random.index(4);
    Text::new(
        (0..steps).map(|_| match random.below(if depth > 1 { 4 } else { 3 }) {
            0 => {
                let length = random.index(9);
                Step::words(random.bytes(length))
            }
            1 => Step::words("Tøm ved"),
            2 => drop(random),
            _ => Step::Section(text(random, depth - 1)),
        }),
    )
}

fn drop(random: &mut Random) -> Step {
    let unit = match random.one_in(2) {
        true => Unit::Celsius,
        false => Unit::Fahrenheit,
    };
    let tenths = random.pick(&[0, 1, 9, 10, 2_050, 4_010, 4_015, 4_016, u16::MAX]);
    Step::drop(tenths, unit)
}

fn stamp(random: &mut Random) -> Stamp {
    match random.below(5) {
        0 => Stamp::NONE,
        1 => Stamp::from_number(random.number()),
        _ => Stamp::new(
            random.below(4) as u32,
            random.below(3) as u16,
            random.below(3) as u16,
        ),
    }
}

fn pair(random: &mut Random) -> Pair {
    Pair::new(stamp(random), stamp(random))
}

fn mark(random: &mut Random) -> Mark {
    match random.one_in(2) {
        true => Mark::NONE,
        false => Mark::new(random.below(70_000) as u16, random.number() as u32),
    }
}

fn version(random: &mut Random) -> Version {
    match random.one_in(2) {
        true => Version::One,
        false => Version::Two,
    }
}

fn language(random: &mut Random, version: Version) -> Language {
    let languages = version.languages();
    languages[random.index(languages.len())]
}

#[test]
fn every_payload_is_read_back() {
    let mut random = Random::new(34);
    let (mut structured, mut plain) = (0, 0);
    for _ in 0..300_000 {
        let bytes = bytes(&mut random, 40);
        let form = forms::payload(&bytes);
        let mut line = forms::Line::new(1, &form).expect("a form can be split");
        assert_eq!(
            forms::read_payload(&mut line).as_deref(),
            Ok(&bytes[..]),
            "{form}"
        );
        line.done().expect("the whole form is read");
        assert!(!form.chars().any(char::is_control), "{form:?}");
        let count = if form.starts_with("steps") {
            &mut structured
        } else {
            &mut plain
        };
        *count += 1;
    }
    assert!(
        structured > 10_000 && plain > 100_000,
        "{structured} {plain}"
    );
}

#[test]
fn every_byte_is_read_back_beside_every_other() {
    for first in 0..=255 {
        for second in 0..=255 {
            let bytes = [first, second];
            let mut line =
                forms::Line::new(1, &forms::quoted(&bytes)).expect("a form can be split");
            assert_eq!(line.quoted("the text").as_deref(), Ok(&bytes[..]));
        }
    }
}

#[test]
fn every_tree_has_its_one_text() {
    let mut random = Random::new(35);
    let mut seen = std::collections::HashMap::new();
    for _ in 0..100_000 {
        let text = text(&mut random, DEEPEST);
        let form = forms::steps(&text);
        assert_eq!(forms::read_steps(&form).as_ref(), Ok(&text), "{form}");
        let before = seen.insert(form, text.clone());
        assert!(before.is_none_or(|before| before == text));
    }
    assert!(seen.len() > 20_000, "{}", seen.len());
}

#[test]
fn every_command_is_read_back() {
    let mut random = Random::new(36);
    let mut accepted = 0;
    for _ in 0..200_000 {
        let version = version(&mut random);
        let text = bytes(&mut random, 20);
        let language = language(&mut random, version);
        let action = match random.below(5) {
            0 => Action::ReadOriginal,
            1 => Action::ReadTranslation(language),
            2 => Action::WriteOriginal(&text),
            3 => Action::WriteTranslation {
                language,
                edition: random.below(3) as u16,
                text: &text,
            },
            _ => Action::Verify,
        };
        let mode = if random.one_in(2) {
            Mode::Shared
        } else {
            Mode::Exclusive
        };
        let by = pair(&mut random);
        let mut command = Command::doing(random.below(3) as u16, action).under(mode, by);
        if random.one_in(3) {
            command.update = Some(pair(&mut random)).filter(|pair| *pair != Pair::NONE);
        }
        let command = command
            .expecting(mark(&mut random))
            .leaving(mark(&mut random));
        let bytes = command.to_bytes(version).expect("it has bytes");
        let form = forms::command(version, &bytes);
        let mut line = forms::Line::new(1, &form).expect("a form can be split");
        assert_eq!(
            forms::read_command(&mut line, version).as_ref(),
            Ok(&bytes),
            "{form}"
        );
        line.done().expect("the whole form is read");
        assert!(!form.starts_with("bytes"));
        let mut image = Image::make(version, 2, 32).expect("such an image");
        let before = image.clone();
        let answer = image.answer_bytes(&bytes, &mut [0; 32]);
        let told = forms::told(version, &bytes, &answer, before.card(command.card).as_ref());
        assert_eq!(
            told.because.is_empty(),
            answer.is_accepted(),
            "{form}: {told:?}"
        );
        accepted += usize::from(answer.number == Number::Accepted);
    }
    assert!(accepted > 1_000, "{accepted}");
}

#[test]
fn bytes_that_are_no_command_are_read_back() {
    let mut random = Random::new(37);
    for _ in 0..50_000 {
        let version = version(&mut random);
        let length = random.index(80);
        let bytes = random.bytes(length);
        let form = forms::command(version, &bytes);
        let mut line = forms::Line::new(1, &form).expect("a form can be split");
        assert_eq!(
            forms::read_command(&mut line, version).as_ref(),
            Ok(&bytes),
            "{form}"
        );
    }
}

/// A random sound image, with cards as any list of commands may leave them, and as none does.
fn image(random: &mut Random) -> Option<Image> {
    let version = version(random);
    let room = rooms().nth(random.index(3)).unwrap_or(16);
    let count = random.between(1, 4) as usize;
    let texts: Vec<Vec<u8>> = (0..count * 5).map(|_| bytes(random, room.into())).collect();
    let cards: Vec<Contents> = texts
        .chunks(5)
        .map(|texts| {
            let edition = random.below(4) as u16;
            let mut card = Contents {
                pair: pair(random),
                mark: mark(random),
                edition,
                ..Contents::default()
            };
            if edition > 0 {
                card.original = &texts[0];
            }
            for language in version.languages() {
                let at = usize::from(language.number());
                let from = random.below(u64::from(edition) + 1) as u16;
                if from > 0 {
                    card.translations[at] = (from, &texts[1 + at]);
                }
            }
            if random.one_in(3) {
                Contents::default()
            } else {
                card
            }
        })
        .collect();
    Image::of_cards(version, room, &cards).ok()
}

#[test]
fn every_sound_image_is_read_back() {
    let mut random = Random::new(38);
    let (mut sound, mut other) = (0, 0);
    for _ in 0..100_000 {
        let Some(image) = image(&mut random) else {
            other += 1;
            continue;
        };
        sound += 1;
        let text = forms::image(&image);
        assert_eq!(forms::read_image(&text).as_ref(), Ok(&image), "{text}");
    }
    assert!(sound > 10_000 && other > 1_000, "{sound} {other}");
}

#[test]
fn every_good_log_is_read_back() {
    let mut random = Random::new(39);
    let (mut cut, mut records) = (0, 0);
    for _ in 0..20_000 {
        let mut log = Log::empty(2_201 + random.index(300)).expect("a log of this length");
        for _ in 0..random.index(8) {
            let text = bytes(&mut random, 20);
            let record = match random.below(4) {
                0 => Record::Begin(log.last_begun() + 1),
                1 => Record::Update {
                    card: random.below(3) as u16,
                    side: Side::Translation,
                    text: &text,
                },
                2 => Record::Commit(log.last_begun()),
                _ => Record::Synced {
                    card: random.number() as u16,
                    transaction: random.number() as u32,
                },
            };
            let stores = if random.one_in(4) {
                random.below(40)
            } else {
                u64::MAX
            };
            cut += usize::from(log.append_cut(&record, stores) == Number::AppendCut);
        }
        records += usize::from(log.count());
        let text = forms::log(&log);
        assert_eq!(forms::read_log(&text).as_ref(), Ok(&log), "{text}");
    }
    assert!(cut > 1_000 && records > 10_000, "{cut} {records}");
}

/// The byte of a text where its step at a path begins; past the section where it has no such step.
fn place(text: &Text, path: &[usize]) -> usize {
    let (first, rest) = path.split_first().expect("a path has a step");
    let before = Text::new(text.steps[..first - 1].iter().cloned());
    let at = before.to_bytes().expect("a part of a text").len();
    match (rest.is_empty(), text.steps.get(first - 1)) {
        (false, Some(Step::Section(inner))) => at + 1 + place(inner, rest),
        _ => at,
    }
}

#[test]
fn texts_part_where_the_library_says() {
    let mut random = Random::new(40);
    let (mut same, mut parted) = (0, 0);
    for _ in 0..100_000 {
        let first = text(&mut random, 4);
        let second = if random.one_in(3) {
            text(&mut random, 4)
        } else {
            changed(&mut random, &first)
        };
        let bytes = [&first, &second].map(|text| text.to_bytes().expect("it has bytes"));
        match (agree(&bytes[0], &bytes[1]), forms::parted(&first, &second)) {
            (Ok(()), None) => same += 1,
            (Err(lupaniele::Disagreement::Parted { place: at }), Some(found)) => {
                assert_eq!(place(&first, &found.path), at, "{first}\n{second}\n{found}");
                parted += 1;
            }
            other => panic!("{other:?}"),
        }
    }
    assert!(same > 1_000 && parted > 10_000, "{same} {parted}");
}

/// The same text, perhaps with a step changed, added or taken away.
fn changed(random: &mut Random, text: &Text) -> Text {
    let mut text = text.clone();
    let at = random.index(text.steps.len().max(1));
    match (random.below(5), text.steps.get_mut(at)) {
        (0, _) => text.steps.push(drop(random)),
        (1, Some(_)) => drop_at(&mut text, at),
        (2, Some(step)) => *step = drop(random),
        (3, Some(Step::Section(inner))) => *inner = changed(random, inner),
        _ => {}
    }
    text
}

fn drop_at(text: &mut Text, at: usize) {
    text.steps.remove(at);
}

#[test]
fn ties_that_rounding_refuses_are_told() {
    let text = |tenths, unit| Text::new([Step::drop(tenths, unit)]);
    let (first, second) = (text(180, Unit::Celsius), text(639, Unit::Fahrenheit));
    let parted = forms::parted(&first, &second).expect("they differ");
    assert_eq!(
        parted.to_string(),
        "step 1: `drop 18.0 C` and `drop 63.9 F` are 0.50 F (0.28 C) apart, which rounding refuses (rule 12.7)"
    );
}
