//! What the program prints, whole and in process: as many commands as an input
//! takes, numbers of every count of digits, streams up to the last byte, and
//! buffers of every sort.

use second::generate;
use second::program::INPUT_LIMIT;
use second::random::Random;
use second::short::{entry, fresh, put_card, write_original};
use second::Format::{V1, V2};
use second::{Entry, Mark, Pair};

use crate::coverage::{Kind, Run};
use crate::program::front_of_version_2;
use crate::proved;
use crate::run::{bytes, same, Compared};

/// As many bytes as the longest output can have.
pub const LONGEST: usize = 238_518;

/// As many commands as an input takes, behind an image of 80 bytes.
const MOST_COMMANDS: usize = (INPUT_LIMIT - 80) / 52;

/// A byte of a buffer that nothing was written to.
const BLANK: u8 = 0xa5;

/// How many sorts of inputs there are.
pub const SORTS: u64 = 9;

/// An input of one of the sorts.
pub fn input(random: &mut Random, sort: u64) -> Vec<u8> {
    match sort {
        0 => dense(random, MOST_COMMANDS),
        1 => {
            let most = random.pick(&[10, 100, 1_000, MOST_COMMANDS]);
            let commands = random.index(most);
            dense(random, commands)
        }
        2 => full(random, INPUT_LIMIT, false),
        3 => full(random, INPUT_LIMIT, true),
        4 => {
            let cut = random.one_in(2);
            full(random, INPUT_LIMIT + 1, cut)
        }
        5 => unfinished(random),
        6 => {
            let mut input = wide(random);
            let length = random.index(input.len());
            input.truncate(length);
            input
        }
        7 => {
            let mut input = generate::sound_image(V2, random);
            let format = random.pick(&[V1, V2]);
            input.extend(generate::stream(format, random, &input));
            input
        }
        _ => wide(random),
    }
}

/// A command without a payload, which fits a card of the image.
fn bare(random: &mut Random, image: &[u8]) -> Vec<u8> {
    loop {
        let command = generate::fitting_command(V1, random, image);
        if command.len() == 52 {
            return command;
        }
    }
}

/// An image of one card, and so many commands of 52 bytes behind it.
fn dense(random: &mut Random, commands: usize) -> Vec<u8> {
    let image = generate::sound_image_of(V1, random, 1, 16);
    let mut input = image.clone();
    for _ in 0..commands {
        input.extend(bare(random, &image));
    }
    input
}

/// An image, and commands with short payloads up to so many bytes in all: the
/// last one is whole, or a part of one is left over.
fn full(random: &mut Random, length: usize, cut: bool) -> Vec<u8> {
    let image = generate::sound_image(V1, random);
    let mut input = image.clone();
    while length - input.len() >= 220 {
        input.extend(generate::fitting_command(V1, random, &image));
    }
    if !cut {
        let text = random.bytes(length - input.len() - 52);
        input.extend(write_original(Pair::default(), &text));
        return input;
    }
    while length - input.len() > 52 {
        input.extend(bare(random, &image));
    }
    let left = length - input.len();
    input.extend(&bare(random, &image)[..left.min(51)]);
    input.resize(length, 0);
    input
}

/// An image, and a command that lacks any number of bytes of a long payload.
fn unfinished(random: &mut Random) -> Vec<u8> {
    let mut input = generate::sound_image_of(V1, random, 1, 16);
    let most = random.pick(&[10, 100, 1_000, 10_000, 65_000]);
    let left = random.index(most);
    let command = write_original(Pair::default(), &[7; 65_100]);
    input.extend(&command[..left]);
    input
}

/// An image whose stored numbers have any count of digits, and a few commands.
fn wide(random: &mut Random) -> Vec<u8> {
    let cards = random.between(1, 3);
    let mut image = fresh(cards, 16);
    for card in 0..cards as u16 {
        let edition = random.number() as u16 >> random.below(16);
        let transaction = random.number() as u32 >> random.below(32);
        let entry = Entry {
            pair: Pair::new(wide_stamp(random), wide_stamp(random)),
            mark: Mark::new(edition | 1, transaction | 1),
            ..entry(edition, edition >> random.below(16))
        };
        put_card(&mut image, card, entry, &[], &[]);
    }
    let mut input = image.clone();
    for _ in 0..random.below(12) {
        input.extend(generate::fitting_command(V1, random, &image));
    }
    input
}

/// A stamp with a desk, of any count of bits from 17 on.
fn wide_stamp(random: &mut Random) -> u64 {
    random.number() >> random.below(48) | 1 << 16
}

/// So many inputs: each sort in turn.
pub fn any(run: &mut Run, random: &mut Random, inputs: u64) -> Compared<()> {
    for count in 0..inputs {
        // Of the longest ones a quarter as many as of the others.
        let sort = match count % SORTS {
            0 | 2..=4 if !random.one_in(4) => SORTS - 1,
            sort => sort,
        };
        let input = input(random, sort);
        compared(run, &input, LONGEST + random.index(2))?;
        if random.one_in(8) {
            let room = random.pick(&[0, 9, LONGEST - 1]);
            compared(run, &input, room)?;
        }
    }
    Ok(())
}

/// What both print for an input, where so many bytes are lent.
fn compared(run: &mut Run, input: &[u8], room: usize) -> Compared<()> {
    let mut out = vec![BLANK; room];
    let count = proved::output(input, &mut out) as usize;
    let second = match room < LONGEST {
        true => String::new(),
        false => second::output(input),
    };
    let lent = || bytes("standard input", input) + &format!("  a buffer of {room} bytes\n");
    let told = String::from_utf8_lossy(&out[..count.min(room)]);
    same(
        "whole output",
        (count, &*told),
        (second.len(), &*second),
        lent,
    )?;
    let written = out[count..].iter().position(|byte| *byte != BLANK);
    same("the bytes behind the output", written, None, lent)?;
    run.case();
    let rooms = [0, 9, LONGEST - 1, LONGEST, LONGEST + 1];
    let at = rooms.iter().position(|other| *other == room);
    at.into_iter()
        .for_each(|at| run.seen_at(Kind::OutputRooms, at));
    if room >= LONGEST {
        counted(run, input, &second);
        if front_of_version_2(input) {
            same("output on version 2", &*told, "bad store\n", lent)?;
            run.seen_at(Kind::OtherFronts, 1);
        }
    }
    Ok(())
}

/// The place of an output among those that are counted, by its last line.
pub fn ending(output: &str) -> usize {
    let last = output.lines().last().unwrap_or_default();
    match last.split(' ').next() {
        Some("too") => 0,
        Some("bad") => 1,
        Some("end") => 2,
        _ => 3,
    }
}

/// Counts an output by its last line, its lines and its numbers.
fn counted(run: &mut Run, input: &[u8], output: &str) {
    let lines: Vec<&str> = output.lines().collect();
    let last = lines.last().copied().unwrap_or_default();
    let kind = ending(output);
    run.seen_at(Kind::WholeOutputs, kind);
    if input.len() == INPUT_LIMIT + 1 {
        run.seen_at(Kind::FullStreams, 2);
    }
    if kind < 2 {
        return;
    }
    let commands = &lines[1..lines.len() - 1];
    if input.len() == INPUT_LIMIT && commands.len() > 600 {
        run.seen_at(Kind::FullStreams, kind - 2);
    }
    if let Some((_, left)) = last.split_once(' ') {
        run.seen_at(Kind::LeftDigits, left.len() - 1);
    }
    let sizes = match commands.len() {
        0 => 0,
        count => 1 + count.ilog10() as usize,
    };
    run.seen_at(Kind::OutputLines, sizes);
    if commands.len() == MOST_COMMANDS {
        run.seen(Kind::MostLines);
    }
    for number in commands.iter().flat_map(|line| line.split(' ')) {
        run.seen_at(Kind::OutputDigits, number.len() - 1);
    }
}
