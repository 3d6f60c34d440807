//! Random and damaged input to every public function: nothing panics, and what
//! the rules say of all answers holds.

mod common;

use common::check::{self, turn};
use common::{entry_of, fresh_of, generate, put_texts, ORIGINAL, TRANSLATION};
use second::random::Random;
use second::stamp::desk_and_start;
use second::{
    convert, endian, output, shown, standing_at, stream, walk, Act, Command, CommandFields, Entry,
    Format, Held, Language, Layout, Mark, Mode, Place, Queue, Standing, Turn,
};

/// How often each number came.
#[derive(Default)]
struct Numbers([u32; 18]);

impl Numbers {
    fn count(&mut self, number: u8) {
        self.0[usize::from(number)] += 1;
    }

    fn assert_all_came(&self, numbers: &[usize]) {
        for &number in numbers {
            assert!(self.0[number] > 100, "number {number}: {:?}", self.0);
        }
    }
}

#[test]
fn answers_on_images_and_commands_of_any_sort() {
    for format in Format::BOTH {
        let mut random = Random::new(1);
        let mut numbers = Numbers::default();
        for _ in 0..40_000 {
            let mut image = generate::image(format, &mut random);
            let length = random.index(40);
            let mut reply = random.bytes(length);
            for _ in 0..3 {
                let command = generate::command(format, &mut random, &image);
                let answer = check::answer(format, &mut image, &command, &mut reply);
                numbers.count(answer.number);
            }
        }
        numbers.assert_all_came(&[0, 1, 2, 3, 4, 5, 6, 7, 8, 9, 17]);
    }
}

/// What a list of commands should show: for each card and language the
/// payload of the last accepted write.
#[test]
fn lists_from_a_fresh_image_show_the_last_accepted_write() {
    for format in Format::BOTH {
        let mut random = Random::new(2);
        let mut numbers = Numbers::default();
        for _ in 0..1_000 {
            let mut image = fresh_of(format, 2, 16);
            let mut written = vec![Vec::new(); 10];
            let mut marks = [Mark::default(); 2];
            for _ in 0..60 {
                let bytes = generate::command(format, &mut random, &image);
                let mut reply = vec![0xaa; random.index(20)];
                let answer = check::answer(format, &mut image, &bytes, &mut reply);
                numbers.count(answer.number);
                if answer.number != 0 {
                    continue;
                }
                let command = Command::parse(format, &bytes).expect("accepted");
                let card = usize::from(command.card);
                assert_eq!(command.expected.desk, marks[card].desk);
                assert!(command.expected.transaction >= marks[card].transaction);
                marks[card] = command.next;
                let length = usize::from(answer.fields.length);
                let place = |language| match language {
                    Language::Original => 5 * card,
                    Language::Translation(t) => 5 * card + 1 + usize::from(t),
                };
                match command.act {
                    Act::Read(language) => assert_eq!(reply[..length], written[place(language)]),
                    Act::Write(language) => written[place(language)] = command.payload.to_vec(),
                    Act::Verify => assert_eq!(length, 0),
                }
            }
        }
        numbers.assert_all_came(&[0, 1, 2, 3, 4, 5, 6, 8, 17]);
    }
}

#[test]
fn soundness_of_any_bytes() {
    for format in Format::BOTH {
        let mut random = Random::new(3);
        let mut sound = 0;
        for _ in 0..40_000 {
            let image = generate::image(format, &mut random);
            if format.is_sound(&image) {
                sound += 1;
                assert_eq!(rebuilt(format, &image), image);
            }
            let length = random.index(300);
            let mut bytes = random.bytes(length);
            assert!(!format.is_sound(&bytes));
            let header = image.len().min(bytes.len()).min(16);
            bytes[..header].copy_from_slice(&image[..header]);
            assert_eq!(
                format.is_sound(&bytes),
                Layout::of_sound(format, &bytes).is_some()
            );
        }
        assert!(sound > 10_000);
    }
}

/// A sound image built once more from its N, C, entry fields and texts.
fn rebuilt(format: Format, image: &[u8]) -> Vec<u8> {
    let layout = Layout::of_header(format, image).expect("sound");
    let mut again = fresh_of(format, layout.cards() as u64, layout.room() as u64);
    for card in 0..layout.cards() as u16 {
        let entry = layout.entry(image, card).expect("a card");
        let text = |language| layout.text(image, card, language).expect("a text");
        let texts: Vec<&[u8]> = layout.languages().map(text).collect();
        put_texts(layout, &mut again, card, entry, &texts);
    }
    again
}

#[test]
fn a_layout_over_bytes_that_are_not_its_image() {
    for format in Format::BOTH {
        let mut random = Random::new(4);
        for _ in 0..20_000 {
            let layout = Layout::new(format, random.between(1, 4), 16 * random.between(1, 3));
            let layout = layout.expect("N and C keep the rules");
            let length = random.index(400);
            let mut bytes = random.bytes(length);
            let card = random.pick(&[0, 1, 2, 3, 4, u16::MAX]);
            let language = if random.one_in(2) {
                ORIGINAL
            } else {
                TRANSLATION
            };
            let before = bytes.clone();
            let entry = layout.entry(&bytes, card).unwrap_or_default();
            let text = layout.text(&bytes, card, language).map(<[u8]>::to_vec);
            assert_eq!(before, bytes);
            layout.put_entry(&mut bytes, card, entry);
            layout.put_text(&mut bytes, card, language, &text.unwrap_or_default());
            if usize::from(card) >= layout.cards() {
                assert_eq!(before, bytes);
            }
        }
    }
}

#[test]
fn making_a_fresh_image_of_anything() {
    for format in Format::BOTH {
        let mut random = Random::new(5);
        let mut numbers = Numbers::default();
        for _ in 0..100_000 {
            let any = random.number();
            let cards = random.pick(&[0, 1, 1, 2, 3, 128, 129, any]);
            let room = random.pick(&[0, 15, 16, 16, 32, 48, 1_040, any]);
            let right = Layout::new(format, cards, room).map_or(144, Layout::size);
            let length = random.pick(&[0, 16, right, right, right, right + 1, right - 1]);
            let mut image = random.bytes(length.min(20_000));
            let before = image.clone();
            let number = format.make_fresh(&mut image, cards, room);
            numbers.count(number);
            match number {
                0 => assert!(format.is_sound(&image) && image[16..].iter().all(|&byte| byte == 0)),
                _ => assert_eq!(image, before),
            }
        }
        numbers.assert_all_came(&[0, 14]);
    }
}

#[test]
fn parsing_any_bytes() {
    for format in Format::BOTH {
        let mut random = Random::new(6);
        let mut image = Vec::new();
        let mut well_formed = 0;
        for round in 0..150_000 {
            if round % 100 == 0 {
                image = generate::sound_image(format, &mut random);
            }
            let bytes = generate::command(format, &mut random, &image);
            let fields = CommandFields::from_bytes(format, &bytes);
            assert_eq!(fields.is_some(), bytes.len() >= format.command_bytes());
            if let Some(fields) = fields {
                assert_eq!(fields.to_bytes()[..], bytes[..format.command_bytes()]);
                assert_eq!(fields.followed_by(&bytes[format.command_bytes()..]), bytes);
            }
            if let Some(command) = Command::parse(format, &bytes) {
                well_formed += 1;
                assert_eq!(command.payload, &bytes[format.command_bytes()..]);
                let language = fields.map_or(0, |fields| fields.language);
                let act = Act::from_numbers(format, command.act.number(), language);
                assert_eq!(act, Some(command.act));
                assert_eq!(Mode::from_number(command.mode.number()), Some(command.mode));
                let session = command.session();
                let own = session.mode.own_stamp(session.pair);
                assert!(own != 0 && session.desk == desk_and_start(own));
                let Command {
                    verifier, update, ..
                } = command;
                assert_eq!(update, verifier.larger(update));
            }
        }
        assert!(well_formed > 30_000);
    }
}

/// The guard alone, on any entry and with any room and reply length.
#[test]
fn an_entry_takes_any_command() {
    for format in Format::BOTH {
        let mut random = Random::new(7);
        let image = fresh_of(format, 1, 16);
        for _ in 0..100_000 {
            let bytes = random.bytes(format.entry_bytes());
            let entry = match random.one_in(2) {
                true => Entry::from_bytes(format, &bytes).unwrap_or_default(),
                false => entry_of(
                    u16::MAX,
                    [0; 4].map(|_: u16| random.pick(&[0, 1, u16::MAX])),
                ),
            };
            let command = generate::fitting_command(format, &mut random, &image);
            let Some(command) = Command::parse(format, &command) else {
                continue;
            };
            let room = random.pick(&[0, 16, usize::MAX]);
            match entry.take(&command, room, random.pick(&[0, 16, usize::MAX])) {
                Ok(now) => {
                    assert_eq!(now.pair, entry.pair.larger(command.update));
                    assert!(now.edition >= entry.edition);
                }
                Err(number) => assert!(matches!(number, 3..=8 | 17)),
            }
        }
    }
}

#[test]
fn turns_on_a_queue_of_any_sort() {
    let mut random = Random::new(8);
    let mut numbers = Numbers::default();
    for _ in 0..60_000 {
        let mut queue = generate::queue(&mut random);
        for _ in 0..2 {
            let taken = random_turn(&mut random);
            let answer = queue.lend(|queue| turn(queue, taken));
            numbers.count(answer.number);
        }
    }
    numbers.assert_all_came(&[0, 1, 10, 11, 12, 13, 15]);
}

fn random_turn(random: &mut Random) -> Turn {
    match random.below(3) {
        0 => Turn::Leave(desk_and_start(generate::any_stamp(random))),
        _ => Turn::Ask(generate::place(random)),
    }
}

/// Chains from an empty queue: who holds the lock, found from the list.
#[test]
fn chains_of_asks_and_leaves() {
    let mut random = Random::new(9);
    let mut numbers = Numbers::default();
    for _ in 0..3_000 {
        let mut queue = common::Kept::new(random.pick(&[1, 2, 3, 5, 32]), &[]);
        for step in 0..30 {
            let taken = chain_turn(&mut random, step);
            let count = queue.count;
            let answer = queue.lend(|queue| turn(queue, taken));
            numbers.count(answer.number);
            if answer.number != 1 {
                assert_eq!(answer.holds, holds(&queue, taken));
            }
            if matches!(answer.number, 13 | 15) {
                assert_eq!(answer.looked_at, count);
            }
        }
        assert!(queue.lend(exclusive_holds_alone));
    }
    numbers.assert_all_came(&[0, 1, 11, 12, 13, 15]);
}

/// A turn of a chain whose times grow slowly.
fn chain_turn(random: &mut Random, step: u32) -> Turn {
    let time = random.between(u64::from(step / 4), u64::from(step / 2)) as u32;
    let own = common::at(time, random.between(1, 6) as u16);
    match random.below(8) {
        0 => random_turn(random),
        1 | 2 => Turn::Leave(desk_and_start(own)),
        3..=5 => Turn::Ask(Place::new(1, own, common::at(time, 9))),
        _ => Turn::Ask(Place::new(2, common::at(time + 1, 9), own)),
    }
}

/// Whether the desk of this turn holds the lock, written out once more (rule
/// 7.5).
fn holds(queue: &common::Kept, taken: Turn) -> bool {
    let desk = match taken {
        Turn::Ask(asked) => asked.desk(),
        Turn::Leave(desk) => Some(desk),
    };
    let standing = &queue.places[..queue.count];
    let Some(at) = standing.iter().position(|place| place.desk() == desk) else {
        return false;
    };
    match standing[at].mode {
        1 => standing[..at].iter().all(|place| place.mode == 1),
        _ => at == 0,
    }
}

/// If an exclusive entry holds the lock, no other entry does.
fn exclusive_holds_alone(queue: &mut Queue) -> bool {
    let standing = queue.places[..queue.count].to_vec();
    let holding: Vec<u8> = standing
        .iter()
        .filter(|&&place| queue.ask(place).holds)
        .map(|place| place.mode)
        .collect();
    !holding.contains(&2) || holding.len() == 1
}

#[test]
fn texts_shown_of_anything_held() {
    let mut random = Random::new(10);
    let mut numbers = Numbers::default();
    for _ in 0..100_000 {
        let (first, second) = (random.index(8), random.index(8));
        let (original, translation) = (random.bytes(first), random.bytes(second));
        let any = random.number();
        let held = Held {
            original: &original,
            translation: &translation,
            original_length: random.pick(&[0, 1, first as u64, 7, any]),
            translation_length: random.pick(&[0, 1, second as u64, 7, any]),
            edition: random.pick(&[0, 1, 2, any as u16]),
            translated_from: random.pick(&[0, 1, 2, any as u16]),
        };
        for (language, buffer, length) in [
            (ORIGINAL, &original, held.original_length),
            (TRANSLATION, &translation, held.translation_length),
        ] {
            let (number, text) = shown(&held, language);
            numbers.count(number);
            assert_eq!(text.as_ptr(), buffer.as_ptr());
            assert_eq!(text.len() as u64, if number == 0 { length } else { 0 });
            assert!(number != 6 || language == TRANSLATION);
        }
    }
    numbers.assert_all_came(&[0, 6, 8]);
}

#[test]
fn walks_of_any_stream() {
    for format in Format::BOTH {
        let mut random = Random::new(11);
        let image = fresh_of(format, 2, 16);
        let (mut ends, mut cuts) = (0, 0);
        for _ in 0..30_000 {
            let stream = generate::stream(format, &mut random, &image);
            let any = random.number() as usize;
            let start = random.pick(&[
                0,
                0,
                0,
                format.command_bytes(),
                stream.len(),
                stream.len() + 1,
                any,
            ]);
            let walk = walk(format, &stream, start);
            assert!(walk.place >= start);
            assert!(walk.place <= stream.len() || walk.place == start && walk.cut);
            match standing_at(format, &stream, walk.place) {
                Standing::End => ends += u32::from(!walk.cut),
                Standing::Cut => cuts += u32::from(walk.cut),
                Standing::Command { .. } => panic!("the walk ended at a whole command"),
            }
            if let Standing::Command { bytes, next } = standing_at(format, &stream, start) {
                assert_eq!(bytes, &stream[start..next]);
                let length = endian::u16_at(bytes, 50).map(usize::from);
                assert_eq!(Some(bytes.len() - format.command_bytes()), length);
            }
        }
        assert_eq!(ends + cuts, 30_000);
        assert!(ends > 1_000 && cuts > 1_000);
    }
}

#[test]
fn runs_of_any_stream_on_any_image() {
    for format in Format::BOTH {
        let mut random = Random::new(12);
        for _ in 0..10_000 {
            let mut image = generate::image(format, &mut random);
            let sound = format.is_sound(&image);
            let commands = generate::stream(format, &mut random, &image);
            let mut reply = vec![0; random.index(40)];
            let (answers, walked) = stream::run(format, &mut image, &commands, &mut reply);
            assert_eq!(answers.len(), walked.commands);
            assert_eq!(walked, walk(format, &commands, 0));
            assert_eq!(format.is_sound(&image), sound);
            assert!(answers.iter().all(|answer| (answer.number == 9) != sound));
        }
    }
}

#[test]
fn the_program_on_any_input() {
    for format in Format::BOTH {
        let mut random = Random::new(13);
        let (mut bad, mut run) = (0, 0);
        for _ in 0..20_000 {
            let mut input = generate::image(format, &mut random);
            let stream = generate::stream(format, &mut random, &input);
            input.extend(stream);
            if random.one_in(8) {
                generate::damage(&mut random, &mut input);
            }
            match output(&input).as_str() {
                "bad store\n" => bad += 1,
                text => run += u32::from(is_whole_output(text)),
            }
        }
        assert_eq!(bad + run, 20_000);
        // Of the images made for version 2 few are of version 1.
        let least = if format == Format::V1 { 1_000 } else { 100 };
        assert!(bad > 1_000 && run > least);
    }
}

/// The lines of a run: `cards`, numbered lines of nine numbers, the last line.
fn is_whole_output(text: &str) -> bool {
    let lines: Vec<&str> = text.lines().collect();
    let [first, middle @ .., last] = &lines[..] else {
        return false;
    };
    let numbered = (1..).zip(middle).all(|(count, line): (u64, _)| {
        let numbers: Vec<Option<u64>> = line.split(' ').map(|word| word.parse().ok()).collect();
        numbers.len() == 9 && numbers[0] == Some(count) && !numbers.contains(&None)
    });
    let last = *last == "end" || last.starts_with("cut ");
    text.ends_with('\n') && first.starts_with("cards ") && numbered && last
}

#[test]
fn numbers_at_any_offset() {
    let mut random = Random::new(14);
    for _ in 0..50_000 {
        let length = random.index(12);
        let mut bytes = random.bytes(length);
        let any = random.number() as usize;
        let at = random.pick(&[0, 1, length, usize::MAX, any]);
        let fits = |width: usize| at <= length && length - at >= width;
        assert_eq!(endian::u16_at(&bytes, at).is_some(), fits(2));
        assert_eq!(endian::u32_at(&bytes, at).is_some(), fits(4));
        assert_eq!(endian::u64_at(&bytes, at).is_some(), fits(8));
        let before = bytes.clone();
        let value = random.number() as u32;
        endian::put(&mut bytes, at, &value.to_le_bytes());
        match fits(4) {
            true => assert_eq!(endian::u32_at(&bytes, at), Some(value)),
            false => assert_eq!(bytes, before),
        }
    }
}

#[test]
fn the_generator_is_deterministic_and_keeps_its_bounds() {
    let numbers = |seed| {
        let mut random = Random::new(seed);
        (0..4).map(|_| random.number()).collect::<Vec<u64>>()
    };
    assert_eq!(numbers(1), numbers(1));
    assert_ne!(numbers(1), numbers(2));
    for seed in (0..1_000).chain([u64::MAX, 1 << 63]) {
        let mut random = Random::new(seed);
        assert!(random.below(7) < 7);
        assert_eq!((random.below(0), random.index(0)), (0, 0));
        assert!((3..=5).contains(&random.between(3, 5)));
        assert_eq!(random.between(5, 3), 5);
        assert_eq!(random.between(u64::MAX, u64::MAX), u64::MAX);
        random.between(0, u64::MAX);
        assert_eq!(random.bytes(9).len(), 9);
        assert_eq!(random.pick::<u8>(&[]), 0);
        assert!(random.one_in(1));
    }
}

/// Conversion of any bytes into any number of bytes: what it answers, and what
/// is in the new image, worked out card by card.
#[test]
fn conversions_of_any_image() {
    let mut random = Random::new(14);
    let mut numbers = Numbers::default();
    for _ in 0..40_000 {
        let image = generate::image(Format::V1, &mut random);
        let old = Layout::of_sound(Format::V1, &image);
        let size = old.map_or(144, |old| 16 + (48 + 5 * old.room()) * old.cards());
        let length = random.pick(&[size, size, size, size - 1, size + 1, image.len(), 0]);
        let mut target = random.bytes(length);
        let before = target.clone();
        let number = convert(&image, &mut target);
        numbers.count(number);
        assert_eq!(number == 9, old.is_none());
        assert_eq!(number == 14, old.is_some() && length != size);
        let Some(old) = old.filter(|_| number == 0) else {
            assert_eq!(target, before);
            continue;
        };
        let new = Layout::of_sound(Format::V2, &target).expect("sound");
        assert_eq!((new.cards(), new.room()), (old.cards(), old.room()));
        for card in 0..old.cards() as u16 {
            assert_eq!(new.entry(&target, card), old.entry(&image, card));
            for (at, language) in new.languages().enumerate() {
                let kept = old.text(&image, card, language).filter(|_| at < 2);
                assert_eq!(new.text(&target, card, language), kept.or(Some(&[])));
            }
        }
    }
    numbers.assert_all_came(&[0, 9, 14]);
}
