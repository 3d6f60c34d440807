//! The bytes are those that the second program reads and writes. Any bytes get an answer or an error, never a panic;
//! what is read is written back as the same bytes; what is no sound image breaks a rule that is named.

use lupaniele::{
    Act, Action, Broken, Command, Image, Language, Log, Mark, Mode, Pair, Record, Side, Stamp,
    Step, Stream, Text, Unit, Version,
};
use second::random::Random;
use second::{CommandFields, Format, Layout};

const VERSIONS: [Version; 2] = [Version::One, Version::Two];

fn bytes(random: &mut Random, length: usize) -> Vec<u8> {
    (0..length).map(|_| random.byte()).collect()
}

fn stamp(random: &mut Random) -> Stamp {
    Stamp::new(
        random.below(3) as u32,
        random.below(3) as u16,
        random.below(2) as u16,
    )
}

fn command<'a>(random: &mut Random, text: &'a [u8]) -> Command<'a> {
    let language = Language::ALL[random.below(4) as usize];
    let action = match Act::ALL[random.below(5) as usize] {
        Act::ReadOriginal => Action::ReadOriginal,
        Act::ReadTranslation => Action::ReadTranslation(language),
        Act::WriteOriginal => Action::WriteOriginal(text),
        Act::WriteTranslation => Action::WriteTranslation {
            language,
            edition: random.below(3) as u16,
            text,
        },
        Act::Verify => Action::Verify,
    };
    let mode = [Mode::Shared, Mode::Exclusive][random.below(2) as usize];
    let verifier = Pair::new(stamp(random), stamp(random));
    let update = Pair::new(stamp(random), stamp(random));
    let draft = Command::doing(random.below(3) as u16, action);
    let command = match random.below(2) == 0 || update == Pair::NONE {
        true => draft.under(mode, verifier),
        false => draft.opening(mode, verifier, update),
    };
    let mark = |random: &mut Random| Mark::new(random.below(2) as u16, random.below(2) as u32);
    command.expecting(mark(random)).leaving(mark(random))
}

#[test]
fn commands_there_and_back() {
    let mut random = Random::new(1);
    for _ in 0..20_000 {
        let length = random.below(40) as usize;
        let text = bytes(&mut random, length);
        let command = command(&mut random, &text);
        for version in VERSIONS {
            let Ok(bytes) = command.to_bytes(version) else {
                assert_eq!(version, Version::One);
                continue;
            };
            assert_eq!(bytes.len(), command.length(version));
            as_the_second_reads_it(version, &command, &bytes);
            assert_eq!(Command::parse(version, &bytes), Ok(command));
            assert_eq!(
                Stream::new(version, &bytes).collect::<Vec<_>>(),
                [&bytes[..]]
            );
        }
    }
}

#[test]
fn what_is_parsed_is_what_is_written() {
    let (mut random, mut parsed) = (Random::new(2), 0);
    for _ in 0..200_000 {
        let mut bytes = vec![0; 68 + random.below(3) as usize];
        bytes[0] = random.below(6) as u8;
        bytes[1] = random.below(4) as u8;
        for _ in 0..random.below(6) {
            let at = random.below(54) as usize;
            bytes[at] = random.below(3) as u8;
        }
        for version in VERSIONS {
            let length = random.below(bytes.len() as u64 + 1) as usize;
            for lent in [&bytes[..], &bytes[..length], &bytes[..52]] {
                if let Ok(command) = Command::parse(version, lent) {
                    parsed += 1;
                    assert_eq!(command.to_bytes(version).as_deref(), Ok(lent));
                }
            }
        }
    }
    assert!(parsed > 1_000);
}

/// An image with some texts in it.
fn image(random: &mut Random, version: Version) -> Image {
    let mut image =
        Image::make(version, 1 + random.below(3) as u16, 16).expect("an image of this shape");
    for _ in 0..20 {
        let length = random.below(17) as usize;
        let text = bytes(random, length);
        let command = command(random, &text);
        if let Ok(answer) = image.answer(&command, &mut [0; 16]) {
            let _ = answer.text(&[]);
        }
    }
    image
}

#[test]
fn what_is_not_sound_breaks_a_rule_that_is_named() {
    let (mut random, mut unsound) = (Random::new(3), 0);
    for _ in 0..4_000 {
        for version in VERSIONS {
            let whole = image(&mut random, version).into_bytes();
            assert!(Image::check(&whole).is_ok_and(|image| image.version() == version));
            let mut damaged = whole;
            for _ in 0..1 + random.below(3) {
                let at = random.below(damaged.len() as u64) as usize;
                damaged[at] = [random.byte(), random.below(4) as u8][random.below(2) as usize];
            }
            damaged.truncate(damaged.len() - random.below(20).saturating_sub(17) as usize);
            if let Err(broken) = Image::check(&damaged) {
                unsound += 1;
                assert_ne!(broken, Broken::Other, "{damaged:?}");
            }
        }
    }
    assert!(unsound > 1_000);
}

#[test]
fn any_bytes_do() {
    let mut random = Random::new(4);
    for _ in 0..20_000 {
        let length = random.below(300) as usize;
        let some = bytes(&mut random, length);
        for version in VERSIONS {
            let mut image = image(&mut random, version);
            let _ = image.answer_bytes(&some, &mut [0; 3]);
            let (answers, end) = image.run(&some, &mut [0; 16]);
            assert_eq!(end, Stream::new(version, &some).end());
            assert_eq!(answers.len(), Stream::new(version, &some).count());
            assert!(Image::check(image.bytes()).is_ok());
            if random.below(100) != 0 {
                break;
            }
        }
        let _ = (
            Image::check(&some[..]).is_ok(),
            Log::check(&some[..]).is_ok(),
        );
        let _ = (
            Text::read(&some).is_ok(),
            Record::parse(random.byte(), &some),
        );
    }
    for (cards, room) in [(0, 0), (u16::MAX, u16::MAX), (128, 1_024), (1, u16::MAX)] {
        for version in VERSIONS {
            assert!(Image::make(version, cards, room).is_err());
        }
    }
}

fn text(random: &mut Random, depth: u64) -> Text {
    let steps = (0..random.below(4)).map(|_| match random.below(2 + depth.min(1)) {
        0 => Step::words(vec![b'a'; random.below(4) as usize]),
        1 => {
            let unit = [Unit::Celsius, Unit::Fahrenheit][random.below(2) as usize];
            Step::drop(random.below(65_536) as u16, unit)
        }
        _ => Step::Section(text(random, depth - 1)),
    });
    Text::new(steps)
}

#[test]
fn texts_there_and_back() {
    let mut random = Random::new(5);
    for _ in 0..20_000 {
        let text = text(&mut random, 7);
        let bytes = text.to_bytes().expect("no deeper than eight");
        assert_eq!(Text::read(&bytes), Ok(text.clone()));
        let steps = (0..=bytes.len()).filter(|place| text.step_at(*place).is_some());
        assert_eq!(steps.count(), text.to_string().lines().count());
    }
}

#[test]
fn records_there_and_back() {
    let mut log = Log::empty(4_096).expect("a log of this length");
    let records = [
        Record::Begin(7),
        Record::Update {
            card: 300,
            side: Side::Translation,
            text: b"401",
        },
        Record::Commit(7),
        Record::Synced {
            card: 300,
            transaction: 7,
        },
    ];
    for record in &records {
        assert_eq!(Record::parse(record.kind(), &record.body()), Some(*record));
        assert_eq!(log.append(record), Ok(()));
    }
    assert!(log.records().eq(records));
    let read = second::read_back(log.bytes()).expect("a good log");
    let bodies = read
        .records
        .iter()
        .map(|logged| format!("{:?}", logged.record));
    let texts = [
        "Begin(7)",
        "Update { card: 300, side: 2, text: [52, 48, 49] }",
        "Commit(7)",
        "Synced { card: 300, transaction: 7 }",
    ];
    assert!(bodies.eq(texts));
}

fn format(version: Version) -> Format {
    match version {
        Version::One => Format::V1,
        Version::Two => Format::V2,
    }
}

fn pair(pair: Pair) -> second::Pair {
    second::Pair::new(pair.s.number(), pair.x.number())
}

fn mark(mark: Mark) -> second::Mark {
    second::Mark::new(mark.desk, mark.transaction)
}

/// The second program reads the same numbers out of a command's bytes.
fn as_the_second_reads_it(version: Version, command: &Command, bytes: &[u8]) {
    let (language, edition, text) = match command.action {
        Action::ReadTranslation(language) => (language, 0, &[][..]),
        Action::WriteOriginal(text) => (Language::First, 0, text),
        Action::WriteTranslation {
            language,
            edition,
            text,
        } => (language, edition, text),
        Action::ReadOriginal | Action::Verify => (Language::First, 0, &[][..]),
    };
    let fields = CommandFields {
        format: format(version),
        act: command.action.act().number(),
        mode: command.mode.number(),
        card: command.card,
        pair: pair(command.verifier),
        update: pair(command.update.unwrap_or_default()),
        language: language.number(),
        reserved: [0; 15],
        expected: mark(command.expected),
        next: mark(command.next),
        edition,
        length: text.len() as u16,
    };
    assert_eq!(
        CommandFields::from_bytes(format(version), bytes),
        Some(fields)
    );
    assert!(bytes.ends_with(text));
}

/// The second program reads the same entries and texts out of an image.
#[test]
fn cards_as_the_second_reads_them() {
    let mut random = Random::new(6);
    for _ in 0..4_000 {
        for version in VERSIONS {
            let image = image(&mut random, version);
            let layout = Layout::of_sound(format(version), image.bytes()).expect("a sound image");
            assert_eq!(
                (layout.cards(), layout.room()),
                (image.count().into(), image.room().into())
            );
            for card in image.cards() {
                let entry = layout
                    .entry(image.bytes(), card.number())
                    .expect("an entry");
                assert_eq!(
                    (entry.pair, entry.mark, entry.edition),
                    (pair(card.pair()), mark(card.mark()), card.edition())
                );
                let text = |language| layout.text(image.bytes(), card.number(), language);
                assert_eq!(text(second::Language::Original), Some(card.original()));
                for language in version.languages() {
                    let number = language.number();
                    assert_eq!(
                        text(second::Language::Translation(number)),
                        card.translation(*language)
                    );
                    assert_eq!(
                        Some(entry.translation(number).from),
                        card.translated_from(*language)
                    );
                }
            }
        }
    }
}
