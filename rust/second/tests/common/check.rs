//! What every answer must keep, stated from outside: on the bytes before and
//! after.

use second::{
    Act, Answer, Command, Entry, Format, Language, Layout, Place, Queue, QueueAnswer, ReplyFields,
    Turn,
};

/// Answers a command and checks the answer, the image and the reply buffer.
pub fn answer(format: Format, image: &mut [u8], command: &[u8], reply: &mut [u8]) -> Answer {
    let (image_before, reply_before) = (image.to_vec(), reply.to_vec());
    let answer = format.answer(image, command, reply);
    match answer.number {
        0 => {
            let (before, after) = (&image_before, &*image);
            accepted(format, before, after, command, &reply_before, reply, answer);
        }
        1 | 2 | 9 => {
            assert_eq!(answer.fields, ReplyFields::default());
        }
        3..=8 | 17 => {
            let (stored, _) = entry_of(format, &image_before, command);
            assert_eq!(answer.fields, fields_of(named(format, command), stored, 0));
        }
        number => panic!("no such number: {number}"),
    }
    if answer.number != 0 {
        assert!(image == image_before, "a refusal changed the image");
        assert!(reply == reply_before, "a refusal changed the reply");
    }
    assert_eq!(answer.number == 9, !format.is_sound(&image_before));
    answer
}

/// The entry a well-formed command is about.
fn entry_of(format: Format, image: &[u8], command: &[u8]) -> (Entry, Layout) {
    let layout = Layout::of_header(format, image).expect("rows 3 on need a sound image");
    let command = Command::parse(format, command).expect("rows 3 on need a well-formed command");
    let entry = layout.entry(image, command.card);
    (entry.expect("rows 3 on need a card"), layout)
}

/// The language that a command names: byte 20 of version 2.
fn named(format: Format, command: &[u8]) -> usize {
    match format {
        Format::V1 => 0,
        Format::V2 => command[20].into(),
    }
}

fn fields_of(language: usize, entry: Entry, length: u16) -> ReplyFields {
    ReplyFields {
        pair: entry.pair,
        mark: entry.mark,
        edition: entry.edition,
        translated_from: entry.translations[language].from,
        length,
    }
}

/// The text of a card in a sound image.
fn text(layout: Layout, image: &[u8], card: u16, language: Language) -> Vec<u8> {
    let found = layout.text(image, card, language);
    found.expect("a sound image has its texts").to_vec()
}

/// An accepted command: the new entry, the texts, every other byte, the reply.
fn accepted(
    format: Format,
    before: &[u8],
    after: &[u8],
    bytes: &[u8],
    reply_before: &[u8],
    reply: &[u8],
    answer: Answer,
) {
    assert!(
        format.is_sound(after),
        "an accepted command broke the image"
    );
    let (stored, layout) = entry_of(format, before, bytes);
    let (now, _) = entry_of(format, after, bytes);
    let command = Command::parse(format, bytes).expect("accepted");
    let card = command.card;
    let mut expected = stored;
    expected.pair.s = stored.pair.s.max(command.update.s);
    expected.pair.x = stored.pair.x.max(command.update.x);
    expected.mark = command.next;
    let mut reply_expected = reply_before.to_vec();
    let mut length = 0;
    let mut written = None;
    let payload = command.payload.len() as u16;
    match command.act {
        Act::Read(language) => {
            let read = text(layout, before, card, language);
            reply_expected[..read.len()].copy_from_slice(&read);
            length = read.len() as u16;
        }
        Act::Write(language @ Language::Original) => {
            expected.edition = stored.edition + 1;
            expected.original_length = payload;
            written = Some(language);
        }
        Act::Write(language @ Language::Translation(_)) => {
            let translation = &mut expected.translations[named(format, bytes)];
            (translation.from, translation.length) = (stored.edition, payload);
            written = Some(language);
        }
        Act::Verify => {}
    }
    assert_eq!(now, expected);
    let fields = fields_of(named(format, bytes), now, length);
    assert_eq!(answer.fields, fields);
    assert!(reply == reply_expected, "the reply buffer");
    // Every byte but the entry and the body that is written.
    let mut image_expected = before.to_vec();
    let entry = layout.entry_range(card).expect("exists");
    image_expected[entry.clone()].copy_from_slice(&after[entry]);
    if let Some(language) = written {
        let body = layout.body_range(card, language).expect("exists");
        let (text, rest) = image_expected[body].split_at_mut(command.payload.len());
        text.copy_from_slice(command.payload);
        rest.fill(0);
    }
    assert!(after == image_expected, "a byte elsewhere");
}

/// Takes a turn and checks the answer and the queue.
pub fn turn(queue: &mut Queue, turn: Turn) -> QueueAnswer {
    let before = queue.places.to_vec();
    let (count, largest) = (queue.count, queue.largest);
    let good = queue.standing().is_some();
    let answer = queue.turn(turn);
    assert_eq!(answer.number == 10, !good);
    assert_eq!(queue.standing().is_some(), good, "a good queue stays good");
    match answer.number {
        1 | 10 => {
            let zeros = QueueAnswer {
                number: answer.number,
                ..QueueAnswer::default()
            };
            assert_eq!(answer, zeros);
        }
        _ => {
            assert!(answer.looked_at <= count);
            assert_eq!(answer.largest, queue.largest);
        }
    }
    if answer.number != 0 {
        assert_eq!(queue.places, before, "a refusal changed a place");
        assert_eq!((queue.count, queue.largest), (count, largest));
        return answer;
    }
    let mut list = before[..count].to_vec();
    match turn {
        Turn::Ask(asked) => {
            list.retain(|place| place.desk() != asked.desk());
            list.push(asked);
            assert_eq!(queue.largest.s, largest.s.max(asked.pair.s));
            assert_eq!(queue.largest.x, largest.x.max(asked.pair.x));
            let past = count.max(list.len());
            assert_eq!(queue.places[past..], before[past..]);
        }
        Turn::Leave(desk) => {
            list.retain(|place| place.desk() != Some(desk));
            assert_eq!(queue.largest, largest);
            assert_eq!(queue.places[count - 1], Place::default());
            assert_eq!(queue.places[count..], before[count..]);
            assert!(!answer.holds);
        }
    }
    assert_eq!(queue.count, list.len());
    assert_eq!(queue.places[..queue.count], list);
    answer
}
