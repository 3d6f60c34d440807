//! Single commands: on sound images near every edge, and malformed.

use std::collections::BTreeSet;

use second::generate;
use second::random::Random;
use second::stamp::{time, MOST_AHEAD};
use second::{Act, Command, CommandFields, Entry, Format, Language, Layout, Pair};

use crate::coverage::{Kind, Run};
use crate::languages;
use crate::pairs;
use crate::proved::{self, Answer};
use crate::run::{bytes, same, Compared};

/// Answers a command by both, compares number, fields, image and reply
/// buffer, and leaves image and reply as both left them.
pub fn answer(
    run: &mut Run,
    image: &mut [u8],
    command: &[u8],
    reply: &mut [u8],
) -> Compared<Answer> {
    let (mut second_image, mut second_reply) = (image.to_vec(), reply.to_vec());
    let (image_lent, reply_lent) = (image.to_vec(), reply.to_vec());
    let input =
        || bytes("image", &image_lent) + &bytes("command", command) + &bytes("reply", &reply_lent);
    let format = run.format;
    let proved = proved::answer(format, image, command, reply);
    let second = format.answer(&mut second_image, command, &mut second_reply);
    let told = (second.number, second.fields.numbers());
    same("answer", (proved.number, proved.fields), told, input)?;
    same("image after", &*image, &second_image[..], input)?;
    same("reply after", &*reply, &second_reply[..], input)?;
    run.number(proved.number);
    Ok(proved)
}

/// A well-formed command and the entry of its card.
fn about<'a>(format: Format, image: &[u8], command: &'a [u8]) -> Option<(Command<'a>, Entry)> {
    let command = Command::parse(format, command)?;
    let entry = Layout::of_header(format, image)?.entry(image, command.card)?;
    Some((command, entry))
}

/// The length of the text that a command reads.
fn text_read(command: &Command, stored: Entry) -> Option<usize> {
    match command.act {
        Act::Read(language) => Some(stored.length(language).into()),
        Act::Write(_) | Act::Verify => None,
    }
}

/// A reply buffer whose length is near that of the text that the command
/// reads: from none to one past it.
pub fn reply_near(format: Format, random: &mut Random, image: &[u8], command: &[u8]) -> Vec<u8> {
    let read =
        about(format, image, command).and_then(|(command, stored)| text_read(&command, stored));
    let length = match read {
        Some(text) => random.pick(&[0, text.saturating_sub(1), text, text, text, text + 1]),
        None => random.index(20),
    };
    random.bytes(length)
}

/// A fitting command that does not write and carries a payload all the same.
fn carrying(format: Format, random: &mut Random, image: &[u8]) -> Vec<u8> {
    let mut command = generate::fitting_command(format, random, image);
    let length = 1 + random.index(20);
    let fixed = format.command_bytes();
    command.truncate(fixed);
    command[0] = random.pick(&[1, 2, 5]);
    command[48..50].fill(0);
    command[50..52].copy_from_slice(&(length as u16).to_le_bytes());
    if format == Format::V2 {
        command[20..36].fill(0);
    }
    command.extend(random.bytes(length));
    command
}

/// A fitting command whose expected mark is off by one, in desk or in
/// transaction.
fn off_by_one(format: Format, random: &mut Random, image: &[u8]) -> Vec<u8> {
    let command = generate::fitting_command(format, random, image);
    let Some(mut fields) = CommandFields::from_bytes(format, &command) else {
        return command;
    };
    let expected = &mut fields.expected;
    match random.below(4) {
        0 => expected.desk = expected.desk.wrapping_add(1),
        1 => expected.desk = expected.desk.wrapping_sub(1),
        2 => expected.transaction = expected.transaction.wrapping_add(1),
        _ => expected.transaction = expected.transaction.wrapping_sub(1),
    }
    fields.followed_by(&command[format.command_bytes()..])
}

/// A fitting command with stamps near the limit above the stored ones: on one
/// side or on both, on a card of which some keep no stamp; in its one pair, or
/// in an update pair whose verifier is the stored pair.
fn near_limit(format: Format, random: &mut Random, image: &[u8]) -> Vec<u8> {
    let command = generate::fitting_command(format, random, image);
    let (Some(mut fields), Some((_, stored))) = (
        CommandFields::from_bytes(format, &command),
        about(format, image, &command),
    ) else {
        return command;
    };
    let more = random.pick(&generate::NEAR_LIMIT);
    let own = |stamp, kept: u64| if kept == 0 { stamp } else { kept };
    let Pair { s, x } = stored.pair;
    let (far_s, far_x) = (
        generate::ahead(random, s, more),
        generate::ahead(random, x, more),
    );
    let far = match random.below(3) {
        0 => Pair::new(far_s, own(fields.pair.x, x)),
        1 => Pair::new(own(fields.pair.s, s), far_x),
        _ => Pair::new(far_s, far_x),
    };
    (fields.pair, fields.update) = match random.below(3) {
        0 => (stored.pair, far),
        _ => (far, Pair::default()),
    };
    fields.followed_by(&command[format.command_bytes()..])
}

/// Single commands on sound images near the edges.
pub fn singles(run: &mut Run, random: &mut Random) -> Compared<()> {
    let format = run.format;
    for _ in 0..100 {
        let mut image = generate::sound_image(format, random);
        for _ in 0..3 {
            let command = match random.below(9) {
                0 => carrying(format, random, &image),
                1 => generate::command(format, random, &image),
                2 => off_by_one(format, random, &image),
                3 => near_limit(format, random, &image),
                _ => generate::fitting_command(format, random, &image),
            };
            let lent = reply_near(format, random, &image, &command);
            let before = image.clone();
            let told = answer(run, &mut image, &command, &mut lent.clone())?;
            run.seen(Kind::Singles);
            note_edges(run, &before, &command, lent.len());
            note_bits(run, &command, told.number);
            note_ahead(run, &before, &command, told.number);
            let about = about(format, &before, &command);
            pairs::note(run, &command, about.map(|(_, stored)| stored), told.number);
            languages::note(run, &command, told.number);
        }
    }
    Ok(())
}

/// Counts a value at the place that it has among the edges.
fn note<T: PartialEq>(run: &mut Run, kind: Kind, value: T, edges: &[Option<T>]) {
    let edges = edges.iter().enumerate();
    for (at, _) in edges.filter(|(_, edge)| edge.as_ref() == Some(&value)) {
        run.seen_at(kind, at);
    }
}

/// Counts the edges at which a well-formed command for a card stands.
fn note_edges(run: &mut Run, image: &[u8], command: &[u8], lent: usize) {
    let format = run.format;
    let Some((command, stored)) = about(format, image, command) else {
        return;
    };
    let editions = [0, 1, 65_534, 65_535].map(Some);
    note(run, Kind::Editions, stored.edition, &editions);
    let room = Layout::of_header(format, image).map_or(16, Layout::room);
    let lengths = [0, room - 1, room, room + 1].map(Some);
    if let Some(text) = text_read(&command, stored) {
        note(run, Kind::TextsRead, text, &lengths[..3]);
        let buffers = [Some(0), text.checked_sub(1), Some(text), Some(text + 1)];
        note(run, Kind::Replies, lent, &buffers);
    }
    if matches!(command.act, Act::Write(_)) {
        note(run, Kind::TextsWritten, command.payload.len(), &lengths);
    }
    let (expected, mark) = (command.expected, stored.mark);
    let off = (
        i64::from(expected.desk) - i64::from(mark.desk),
        i64::from(expected.transaction) - i64::from(mark.transaction),
    );
    let edges = [(0, 0), (-1, 0), (1, 0), (0, -1), (0, 1)];
    note(run, Kind::Marks, off, &edges.map(Some));
    let near = |stamp: u64| [Some(stamp), stamp.checked_sub(1), stamp.checked_add(1)];
    note(
        run,
        Kind::SharedStamps,
        command.verifier.s,
        &near(stored.pair.s),
    );
    note(
        run,
        Kind::ExclusiveStamps,
        command.verifier.x,
        &near(stored.pair.x),
    );
}

/// Counts the stamps near the limit above the stored ones, of commands that
/// are not stale, and how 17 stands to the rows around it.
fn note_ahead(run: &mut Run, image: &[u8], bytes: &[u8], number: u8) {
    let format = run.format;
    let Some((command, stored)) = about(format, image, bytes) else {
        return;
    };
    let above = |new: u64, old: u64| i64::from(time(new)) - i64::from(time(old));
    let (s, x) = (
        above(command.update.s, stored.pair.s),
        above(command.update.x, stored.pair.x),
    );
    let most = i64::from(MOST_AHEAD);
    let stale = command.mode.is_below(command.verifier, stored.pair);
    if stale {
        if s > most || x > most {
            run.seen_at(Kind::AheadOrder, 0);
        }
        return;
    }
    let limit = [most - 1, most, most + 1].map(Some);
    if s == x {
        note(run, Kind::AheadBoth, s, &limit);
    } else if x < most - 1 {
        note(run, Kind::AheadShared, s, &limit);
    } else if s < most - 1 {
        note(run, Kind::AheadExclusive, x, &limit);
    }
    if stored.pair.s == 0 {
        note(run, Kind::AheadFreshShared, s, &limit);
    }
    if stored.pair.x == 0 {
        note(run, Kind::AheadFreshExclusive, x, &limit);
    }
    if number == 17 && !command.expected.passes(stored.mark) {
        run.seen_at(Kind::AheadOrder, 1);
    }
    if number == 0 && s < -most {
        run.seen(Kind::FarBelow);
    }
    let opens = command.update != command.verifier;
    if opens && number == 17 && !command.verifier.is_too_far_ahead(stored.pair) {
        run.seen_at(Kind::AheadUpdates, 0);
    }
    if opens && number == 0 && (s == most || x == most) {
        run.seen_at(Kind::AheadUpdates, 1);
    }
}

/// Counts top bits and stamps of different bytes that are accepted, and
/// payloads of non-writes.
fn note_bits(run: &mut Run, bytes: &[u8], number: u8) {
    let format = run.format;
    let Some(fields) = CommandFields::from_bytes(format, bytes) else {
        return;
    };
    let payload = !matches!(fields.act, 3 | 4) && fields.length > 0;
    if payload && bytes.len() == format.command_bytes() + usize::from(fields.length) && number == 1
    {
        run.seen(Kind::Carrying);
    }
    let marks = [fields.expected, fields.next];
    let update = fields.update_pair();
    let stamps = [fields.pair.s, fields.pair.x, update.s, update.x];
    let tops = [
        marks.iter().any(|mark| mark.transaction >> 31 == 1),
        marks.iter().any(|mark| mark.desk >> 15 == 1),
        stamps.iter().any(|stamp| stamp >> 63 == 1),
        stamps.iter().any(|stamp| stamp >> 31 & 1 == 1),
    ];
    for (at, _) in tops
        .iter()
        .enumerate()
        .filter(|(_, top)| **top && number == 0)
    {
        run.seen_at(Kind::TopBits, at);
    }
    for (at, stamp) in stamps.into_iter().enumerate() {
        let different: BTreeSet<u8> = stamp.to_le_bytes().into();
        if number == 0 && different.len() == 8 {
            run.seen_at(Kind::StampBytes, at);
        }
    }
}

/// A read that its card accepts, with every reply buffer from 0 bytes to one
/// past the text.
pub fn replies(run: &mut Run, random: &mut Random) -> Compared<()> {
    let format = run.format;
    let image = generate::sound_image(format, random);
    let layout = Layout::of_header(format, &image);
    let card = random.index(layout.map_or(1, Layout::cards)) as u16;
    let stored = layout.and_then(|layout| layout.entry(&image, card));
    let stored = stored.unwrap_or_default();
    let into = random.index(format.translations()) as u8;
    let (language, named) = match stored.is_behind(into) || random.one_in(2) {
        true => (Language::Original, 0),
        false => (Language::Translation(into), into),
    };
    let mut own = |stamp: u64| match stamp {
        0 => generate::early_stamp(random),
        _ => stamp,
    };
    let pair = Pair::new(own(stored.pair.s), own(stored.pair.x));
    let read = CommandFields {
        format,
        language: named,
        act: Act::Read(language).number(),
        mode: random.pick(&[1, 2]),
        card,
        pair,
        expected: stored.mark,
        next: stored.mark,
        ..CommandFields::default()
    };
    for lent in 0..=usize::from(stored.length(language)) + 1 {
        let mut reply = random.bytes(lent);
        let told = answer(run, &mut image.clone(), &read.with_payload(&[]), &mut reply)?;
        run.seen_at(Kind::EveryReply, usize::from(told.number == 0));
    }
    Ok(())
}

/// Malformed commands: every byte of the fixed part broken in turn, and every
/// length that is not exactly that part's plus the length field.
pub fn malformed(run: &mut Run, random: &mut Random) -> Compared<()> {
    let format = run.format;
    let image = generate::sound_image(format, random);
    let command = generate::fitting_command(format, random, &image);
    let fixed = format.command_bytes();
    let sent = |run: &mut Run, random: &mut Random, command: &[u8]| {
        let mut reply = random.bytes(18);
        answer(run, &mut image.clone(), command, &mut reply).map(|told| told.number)
    };
    let reaches_guard = !matches!(sent(run, random, &command)?, 1 | 2);
    for at in 0..fixed {
        let byte = command[at];
        let near = [byte ^ 1, byte ^ 0x80, byte.wrapping_add(1), random.byte()];
        for changed in [0, 1, 0xff].into_iter().chain(near) {
            let mut broken = command.clone();
            broken[at] = changed;
            let number = sent(run, random, &broken)?;
            if reaches_guard && matches!(number, 1 | 2) {
                run.seen_at(Kind::CommandBytes, at);
            }
        }
    }
    let whole = command.len();
    let edges = [0, 1, 49, 50, 51, 52, 53, 67, 68, 69];
    let lengths = edges
        .into_iter()
        .chain([whole - 1, whole + 1, fixed + 65_535]);
    for length in lengths.filter(|length| *length != whole) {
        let mut broken = command.clone();
        broken.resize(length, 0);
        sent(run, random, &broken)?;
        run.seen_at(Kind::CommandLengths, usize::from(length > whole));
    }
    Ok(())
}
