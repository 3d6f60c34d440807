//! Random inputs near the edges of the rules, for tests and the comparison.

// Nothing here is part of the store.
#![allow(clippy::arithmetic_side_effects, clippy::indexing_slicing)]

use crate::random::Random;
use crate::short::{entry_of, fresh_of, put_texts, Kept};
use crate::stamp::{time, MOST_AHEAD};
use crate::{CommandFields, Entry, Format, Layout, Mark, Pair, Place};

/// A few stamps that are often equal or near, some of them not valid.
pub fn any_stamp(random: &mut Random) -> u64 {
    match random.below(8) {
        0 => 0,
        1 => random.number(),
        2 => random.below(0x2_0000),
        _ => valid_stamp(random),
    }
}

/// A stamp with a desk; few desks and few times, so that they meet.
pub fn valid_stamp(random: &mut Random) -> u64 {
    stamp_of(random, &[0, 1, 1, 2, 2, 3, u32::MAX])
}

/// A stamp with a desk that no card finds too far ahead.
pub fn early_stamp(random: &mut Random) -> u64 {
    stamp_of(random, &[0, 1, 1, 2, 2, 3, MOST_AHEAD])
}

/// A stamp whose T is by so much above that of another, of its desk and start
/// or of any; the other one where there is no such T.
pub fn ahead(random: &mut Random, stamp: u64, more: u32) -> u64 {
    let Some(time) = time(stamp).checked_add(more) else {
        return stamp;
    };
    match stamp != 0 && random.one_in(2) {
        true => stamp + (u64::from(more) << 32),
        false => stamp_of(random, &[time]),
    }
}

/// How much a T near the limit is above the stored one.
pub const NEAR_LIMIT: [u32; 3] = [MOST_AHEAD - 1, MOST_AHEAD, MOST_AHEAD + 1];

/// A stamp with one of these times.
fn stamp_of(random: &mut Random, times: &[u32]) -> u64 {
    let time = random.pick(times);
    let desk = random.pick(&[1, 1, 2, 3, 0x8000, u16::MAX]);
    let start = random.pick(&[0, 0, 0, 1, u16::MAX]);
    crate::stamp::stamp(time, desk, start)
}

/// A stamp that is valid: none or one with a desk.
fn stored_stamp(random: &mut Random) -> u64 {
    match random.below(16) {
        0..=3 => 0,
        // One of any bits, with a desk.
        4 => random.number() | 0x1_0000,
        _ => valid_stamp(random),
    }
}

/// A stamp near this one, mostly valid if this one is, or near the limit above
/// it.
fn near(random: &mut Random, stamp: u64) -> u64 {
    match random.below(13) {
        0 => stamp.saturating_sub(1),
        1 => stamp.saturating_sub(1 << 32),
        2 => stamp.saturating_add(1),
        3 => stamp.saturating_add(1 << 32),
        4 => any_stamp(random),
        5 => valid_stamp(random),
        6 => {
            let more = random.pick(&NEAR_LIMIT);
            ahead(random, stamp, more)
        }
        _ => stamp,
    }
}

/// A pair near the stored one, mostly with the mode's own stamp.
fn near_pair(random: &mut Random, mode: u8, stored: Pair) -> Pair {
    let mut pair = Pair::new(near(random, stored.s), near(random, stored.x));
    let own = if mode == 1 { &mut pair.s } else { &mut pair.x };
    if *own == 0 && !random.one_in(8) {
        *own = early_stamp(random);
    }
    pair
}

/// The two pairs of a command that is to go with this one: half of the time
/// the pair alone, else a verifier and an update pair near the edges of their
/// rules.
fn two_pairs(random: &mut Random, mode: u8, pair: Pair) -> (Pair, Pair) {
    let none = Pair::default();
    let Pair { s, x } = pair;
    let shared = mode == 1;
    match random.below(24) {
        // The verifier again; a new pair after it.
        0 => (pair, pair),
        1..=2 => (pair, Pair::new(later(random, s), later(random, x))),
        3 => (pair, Pair::new(later(random, s), x)),
        4 => (pair, Pair::new(s, later(random, x))),
        // The pair, opened out of none, or without the mode's own stamp.
        5..=6 => (none, pair),
        7 if shared => (Pair::new(0, x), pair),
        7 => (Pair::new(s, 0), pair),
        // Half of it none, above none and above something.
        8 => (random.pick(&[none, pair]), Pair::new(0, later(random, x))),
        9 => (random.pick(&[none, pair]), Pair::new(later(random, s), 0)),
        // Off the verifier by one.
        10 => (
            pair,
            Pair::new(random.pick(&[s.wrapping_sub(1), s.wrapping_add(1)]), x),
        ),
        11 => (
            pair,
            Pair::new(s, random.pick(&[x.wrapping_sub(1), x.wrapping_add(1)])),
        ),
        // A stamp without a desk, in either.
        12 => (pair, Pair::new(without_desk(random), later(random, x))),
        13 => (pair, Pair::new(later(random, s), without_desk(random))),
        14 => (
            Pair::new(1, x),
            Pair::new(later(random, s), later(random, x)),
        ),
        15 => (
            Pair::new(s, 1),
            Pair::new(later(random, s), later(random, x)),
        ),
        16 => (pair, Pair::new(any_stamp(random), any_stamp(random))),
        _ => (pair, none),
    }
}

/// A stamp with a desk, above this one if there is one.
pub fn later(random: &mut Random, stamp: u64) -> u64 {
    let desk = random.pick(&[1, 2, 3, u16::MAX]);
    let time = (stamp >> 32) as u32;
    let time = time.saturating_add(random.pick(&[1, 1, 2]));
    crate::stamp::stamp(time, desk, random.pick(&[0, 0, 1]))
}

/// A stamp that is not valid, and large.
fn without_desk(random: &mut Random) -> u64 {
    let time = random.pick(&[3, 9, u32::MAX]);
    crate::stamp::stamp(time, 0, random.pick(&[0, 1, u16::MAX]))
}

/// A mark by the rules.
fn mark(random: &mut Random) -> Mark {
    match random.below(3) {
        0 => Mark::default(),
        _ => Mark::new(
            random.pick(&[1, 2, 0x8000, u16::MAX]),
            random.pick(&[1, 2, 0x8000_0000, u32::MAX]),
        ),
    }
}

/// Any mark.
fn any_mark(random: &mut Random) -> Mark {
    let desk = random.pick(&[0, 1, u16::MAX]);
    Mark::new(desk, random.pick(&[0, 1, u32::MAX]))
}

/// A text of up to `room` bytes, often empty or full.
fn text(random: &mut Random, room: usize) -> Vec<u8> {
    let any = random.index(room + 1);
    let length = random.pick(&[0, 1, any, room - 1, room]);
    random.bytes(length)
}

/// N and C at the limits and next to them: of the most cards, of the most
/// room, and of the largest images, which have 65,520 bytes in version 1 and
/// 65,536 in version 2.
pub fn large(format: Format) -> [(u64, u64); 9] {
    match format {
        Format::V1 => [
            (127, 16),
            (128, 16),
            (127, 240),
            (128, 224),
            (1, 1_024),
            (30, 1_024),
            (31, 1_024),
            (62, 512),
            (89, 352),
        ],
        Format::V2 => [
            (127, 16),
            (128, 16),
            (127, 80),
            (128, 80),
            (1, 1_024),
            (11, 1_024),
            (12, 1_024),
            (15, 864),
            (65, 192),
        ],
    }
}

/// N and C just beyond one of the limits: of the cards, of the room, and of
/// the bytes, from 65,552 on.
pub fn beyond(format: Format) -> [(u64, u64); 9] {
    let of_bytes = match format {
        Format::V1 => [(32, 1_024), (32, 1_008), (64, 496), (128, 240)],
        Format::V2 => [(13, 1_024), (32, 400), (26, 512), (128, 96)],
    };
    let [a, b, c, d] = of_bytes;
    [(0, 16), (129, 16), (1, 0), (1, 24), (1, 1_040), a, b, c, d]
}

/// A sound image of a few cards.
pub fn sound_image(format: Format, random: &mut Random) -> Vec<u8> {
    let cards = random.pick(&[1, 1, 2, 3]);
    let room = random.pick(&[16, 16, 32, 48]);
    sound_image_of(format, random, cards, room)
}

/// A sound image of N cards with room C.
pub fn sound_image_of(format: Format, random: &mut Random, cards: u64, room: u64) -> Vec<u8> {
    let mut image = fresh_of(format, cards, room);
    if let Some(layout) = Layout::of_header(format, &image) {
        for card in 0..cards as u16 {
            put_random_card(random, layout, &mut image, card);
        }
    }
    image
}

fn put_random_card(random: &mut Random, layout: Layout, image: &mut [u8], card: u16) {
    let edition = random.pick(&[0, 1, 1, 2, 65_534, 65_535]);
    let mut from = [0; 4];
    for one in from.iter_mut().take(layout.format().translations()) {
        let earlier = random.between(0, edition.into()) as u16;
        *one = random.pick(&[0, edition, edition, earlier]);
    }
    let entry = Entry {
        pair: Pair::new(stored_stamp(random), stored_stamp(random)),
        mark: mark(random),
        ..entry_of(edition, from)
    };
    let mut written = |edition: u16| match edition {
        0 => Vec::new(),
        _ => text(random, layout.room()),
    };
    let texts: Vec<Vec<u8>> = std::iter::once(edition)
        .chain(from)
        .map(&mut written)
        .collect();
    let texts: Vec<&[u8]> = texts.iter().map(Vec::as_slice).collect();
    put_texts(layout, image, card, entry, &texts);
}

/// A command that fits a card of the image in most of its fields.
pub fn fitting_command(format: Format, random: &mut Random, image: &[u8]) -> Vec<u8> {
    let layout = Layout::of_header(format, image);
    let cards = layout.map_or(1, Layout::cards);
    let room = layout.map_or(16, Layout::room);
    let card = random.index(cards) as u16;
    let stored = layout.and_then(|layout| layout.entry(image, card));
    let stored = stored.unwrap_or_default();
    let act = random.between(1, 5) as u8;
    let write = act == 3 || act == 4;
    let mode = if write { 2 } else { random.pick(&[1, 2]) };
    let pair = near_pair(random, mode, stored.pair);
    let (pair, update) = two_pairs(random, mode, pair);
    let fields = CommandFields {
        format,
        act,
        mode,
        language: language(format, random, act),
        reserved: reserved(format, random),
        card: if random.one_in(16) {
            cards as u16
        } else {
            card
        },
        pair,
        update,
        expected: if random.one_in(8) {
            mark(random)
        } else {
            stored.mark
        },
        next: mark(random),
        edition: if act == 4 { named(random, stored) } else { 0 },
        length: 0,
    };
    match write {
        true => {
            let room = if random.one_in(8) { room + 2 } else { room };
            fields.with_payload(&text(random, room))
        }
        false => fields.with_payload(&[]),
    }
}

/// A language for this act, mostly one that it can name; 0 in version 1.
fn language(format: Format, random: &mut Random, act: u8) -> u8 {
    let names = act == 2 || act == 4;
    match format {
        Format::V1 => 0,
        Format::V2 if names != random.one_in(24) => random.below(4) as u8,
        Format::V2 if names => random.pick(&[4, 5, 0x80, 0xff]),
        Format::V2 => 0,
    }
}

/// The bytes behind the language, mostly zeros.
fn reserved(format: Format, random: &mut Random) -> [u8; 15] {
    let mut bytes = [0; 15];
    if format == Format::V2 && random.one_in(24) {
        bytes[random.index(15)] = random.pick(&[1, 0x80, 0xff]);
    }
    bytes
}

/// The stored edition or one near it.
fn named(random: &mut Random, stored: Entry) -> u16 {
    let (below, above) = (
        stored.edition.saturating_sub(1),
        stored.edition.saturating_add(1),
    );
    random.pick(&[stored.edition, stored.edition, stored.edition, below, above])
}

/// A command with any fields.
pub fn any_command(format: Format, random: &mut Random) -> Vec<u8> {
    let fields = CommandFields {
        format,
        language: random.below(6) as u8,
        reserved: reserved(format, random),
        act: random.between(0, 6) as u8,
        mode: random.between(0, 3) as u8,
        card: random.pick(&[0, 0, 1, 2, 127, 128, u16::MAX]),
        pair: Pair::new(any_stamp(random), any_stamp(random)),
        update: match random.below(4) {
            0 => Pair::new(any_stamp(random), any_stamp(random)),
            1 => Pair::new(random.number(), random.number()),
            _ => Pair::default(),
        },
        expected: any_mark(random),
        next: any_mark(random),
        edition: random.pick(&[0, 0, 1, 2, u16::MAX]),
        length: random.below(70) as u16,
    };
    let length = random.index(70);
    let payload = random.bytes(length);
    match random.one_in(4) {
        true => fields.followed_by(&payload),
        false => fields.with_payload(&payload),
    }
}

/// A command of any sort: fitting, of the other version, with any fields,
/// damaged, or any bytes.
pub fn command(format: Format, random: &mut Random, image: &[u8]) -> Vec<u8> {
    let mut command = match random.below(32) {
        0 => fitting_command(format.other(), random, image),
        1..=4 => any_command(format, random),
        5..=8 => {
            let length = random.index(120);
            random.bytes(length)
        }
        _ => fitting_command(format, random, image),
    };
    if random.one_in(6) {
        damage(random, &mut command);
    }
    command
}

/// An image of any sort: sound, of the other version, damaged, or any bytes.
pub fn image(format: Format, random: &mut Random) -> Vec<u8> {
    match random.below(16) {
        0 if random.one_in(2) => sound_image(format.other(), random),
        0 => {
            let length = random.index(200);
            random.bytes(length)
        }
        1..=3 => {
            let mut image = sound_image(format, random);
            damage(random, &mut image);
            image
        }
        _ => sound_image(format, random),
    }
}

/// Changes one byte, or the length, or a few bytes in a row.
pub fn damage(random: &mut Random, bytes: &mut Vec<u8>) {
    if bytes.is_empty() {
        return;
    }
    let place = random.index(bytes.len());
    match random.below(6) {
        0 => bytes.truncate(place),
        1 => bytes.push(random.byte()),
        2 => bytes[place] ^= 1 << random.below(8),
        3 => bytes[place] = random.byte(),
        4 => bytes[place..].iter_mut().take(8).for_each(|byte| *byte = 0),
        _ => bytes[place..]
            .iter_mut()
            .take(8)
            .for_each(|byte| *byte = 0xff),
    }
}

/// A place of any sort, mostly well formed.
pub fn place(random: &mut Random) -> Place {
    match random.below(8) {
        0 => Place::new(random.byte(), random.number(), random.number()),
        1 => Place::new(
            random.between(0, 3) as u8,
            any_stamp(random),
            any_stamp(random),
        ),
        _ => {
            let mode = random.pick(&[1, 2]);
            let (s, x) = (stored_stamp(random), stored_stamp(random));
            Place::new(mode, s, x)
        }
    }
}

/// A queue: good, or damaged in one way.
pub fn queue(random: &mut Random) -> Kept {
    let length = random.pick(&[1, 2, 3, 3, 4, 5, 8, 32]);
    queue_of(random, length)
}

/// A queue of so many places.
pub fn queue_of(random: &mut Random, length: usize) -> Kept {
    let mut places: Vec<Place> = (0..length).map(|_| place(random)).collect();
    let count = random.pick(&[0, 1, 2, 3, 5, length]).min(length);
    let mut largest = Pair::default();
    for (at, standing) in places.iter_mut().take(count).enumerate() {
        let start = random.pick(&[0, 1]);
        let own = crate::stamp::stamp(random.below(4) as u32, at as u16 + 1, start);
        *standing = match random.below(3) {
            0 => Place::new(2, stored_stamp(random), own),
            _ => Place::new(1, own, stored_stamp(random)),
        };
        largest = largest.larger(standing.pair);
    }
    let mut queue = Kept {
        places,
        count,
        largest,
    };
    if random.one_in(4) {
        damage_queue(random, &mut queue);
    }
    queue
}

/// Changes the length, the count, the largest pair or one entry.
fn damage_queue(random: &mut Random, queue: &mut Kept) {
    let places = &mut queue.places;
    if places.is_empty() {
        return;
    }
    let at = random.index(queue.count.max(1));
    // Above every stamp, and not valid: it has no desk.
    let above = crate::stamp::stamp(u32::MAX, 0, 1);
    let any = any_stamp(random);
    let largest = random.pick(&[any, above]);
    match random.below(7) {
        0 => places.resize(33, Place::default()),
        1 => places.clear(),
        2 => queue.count = random.pick(&[places.len() + 1, usize::MAX]),
        3 => queue.largest.s = largest,
        4 => queue.largest.x = largest,
        5 => places[at] = place(random),
        _ => places[at] = places[random.index(places.len())],
    }
}

/// A stream of commands, often cut or damaged.
pub fn stream(format: Format, random: &mut Random, image: &[u8]) -> Vec<u8> {
    let mut stream = Vec::new();
    for _ in 0..random.below(6) {
        stream.extend(command(format, random, image));
    }
    if random.one_in(3) {
        damage(random, &mut stream);
    }
    stream
}
