//! Images: damaged ones, and the making of fresh ones.

use second::random::Random;
use second::{generate, Format, Layout};

use crate::answers::{answer, reply_near};
use crate::coverage::{Kind, Run};
use crate::proved;
use crate::run::{bytes, same, Compared};

/// Compares whether bytes are a sound image.
pub fn soundness(run: &mut Run, image: &[u8]) -> Compared<bool> {
    let format = run.format;
    let (proved, second) = (proved::sound(format, image), format.is_sound(image));
    same("sound", proved, second, || bytes("image", image))?;
    run.case();
    Ok(proved)
}

/// The fields of an entry: where and how wide.
fn fields(format: Format) -> Vec<(usize, usize)> {
    let first = [(0, 8), (8, 8), (16, 2), (18, 2), (20, 4)];
    let last = match format {
        Format::V1 => 24..32,
        Format::V2 => 24..48,
    };
    let last = last.step_by(2).map(|at| (at, 2));
    first.into_iter().chain(last).collect()
}

/// Damaged images: every header byte and every field of an entry broken in
/// turn, every other byte changed, bytes missing and bytes too many.
pub fn damaged(run: &mut Run, random: &mut Random) -> Compared<()> {
    let format = run.format;
    let sound = generate::sound_image(format, random);
    let cards = Layout::of_header(format, &sound).map_or(1, Layout::cards);
    let card = random.index(cards);
    let mut command = generate::fitting_command(format, random, &sound);
    command[2..4].copy_from_slice(&(card as u16).to_le_bytes());
    fields_broken(run, random, &sound, card, &command)?;
    for at in 0..sound.len() {
        for changed in [sound[at] ^ 1 << random.below(8), random.byte()] {
            let mut image = sound.clone();
            image[at] = changed;
            match (one(run, random, image, &command)?, at) {
                (true, _) => run.seen(Kind::StillSound),
                (false, 0..16) => run.seen_at(Kind::HeaderBytes, at),
                (false, _) if at >= 16 + format.entry_bytes() * cards => run.seen(Kind::BodyBytes),
                (false, _) => {}
            }
        }
    }
    let whole = sound.len();
    for length in [0, 1, 15, 16, 17, whole - 1, whole + 1, whole + 64] {
        let mut image = sound.clone();
        image.resize(length, 0);
        one(run, random, image, &command)?;
        run.seen_at(Kind::ImageLengths, usize::from(length > whole));
    }
    Ok(())
}

/// Each field of a card's entry with values at its edges.
fn fields_broken(
    run: &mut Run,
    random: &mut Random,
    sound: &[u8],
    card: usize,
    command: &[u8],
) -> Compared<()> {
    let format = run.format;
    let room = Layout::of_header(format, sound).map_or(16, Layout::room) as u64;
    for (field, (offset, width)) in fields(format).into_iter().enumerate() {
        let at = 16 + format.entry_bytes() * card + offset;
        let stored = u64::from(second::endian::u16_at(sound, at).unwrap_or(0));
        let (near, wide) = ([0, 1, stored + 1, room, room + 1], [16, 32, 64]);
        let wide = wide.map(|bits: u32| u64::MAX >> (64 - bits));
        let past = [1 << 16, 1 << 32];
        for value in near.into_iter().chain(wide).chain(past) {
            let mut image = sound.to_vec();
            image[at..at + width].copy_from_slice(&value.to_le_bytes()[..width]);
            if !one(run, random, image, command)? {
                run.seen_at(Kind::EntryFields, field);
            }
        }
    }
    Ok(())
}

/// Whether an image is sound, and a command on it.
fn one(run: &mut Run, random: &mut Random, mut image: Vec<u8>, command: &[u8]) -> Compared<bool> {
    let sound = soundness(run, &image)?;
    let mut reply = reply_near(run.format, random, &image, command);
    answer(run, &mut image, command, &mut reply)?;
    Ok(sound)
}

/// Commands on images at the limits, of every third shape from any on.
pub fn large(run: &mut Run, random: &mut Random) -> Compared<()> {
    let format = run.format;
    let shapes = generate::large(format);
    for shape in (random.index(3)..shapes.len()).step_by(3) {
        let (cards, room) = shapes[shape];
        let mut image = generate::sound_image_of(format, random, cards, room);
        for _ in 0..6 {
            let command = generate::fitting_command(format, random, &image);
            let mut reply = reply_near(format, random, &image, &command);
            answer(run, &mut image, &command, &mut reply)?;
            run.seen_at(Kind::Largest, shape);
        }
        let at = random.index(image.len());
        image[at] ^= 1 << random.below(8);
        soundness(run, &image)?;
    }
    Ok(())
}

/// Images beyond the limits that break no other rule: each has the length that
/// its header says, and zeros behind the header.
pub fn beyond(run: &mut Run, random: &mut Random) -> Compared<()> {
    let format = run.format;
    for (shape, (cards, room)) in generate::beyond(format).into_iter().enumerate() {
        let mut image = vec![0; size(format, cards, room)];
        image[..4].copy_from_slice(&[0x52, 0x43, 0x31, 0]);
        image[4..6].copy_from_slice(&format.version().to_le_bytes());
        image[6..8].copy_from_slice(&(cards as u16).to_le_bytes());
        image[8..10].copy_from_slice(&(room as u16).to_le_bytes());
        let command = generate::fitting_command(format, random, &image);
        if !one(run, random, image, &command)? {
            run.seen_at(Kind::Beyond, shape);
        }
    }
    Ok(())
}

/// The length that N and C give, within the limits or beyond them.
pub fn size(format: Format, cards: u64, room: u64) -> usize {
    (16 + match format {
        Format::V1 => 32 * cards + 2 * room * cards,
        Format::V2 => 48 * cards + 5 * room * cards,
    }) as usize
}

/// Makes a fresh image by both, and leaves it as both left it.
pub fn make(run: &mut Run, image: &mut [u8], cards: u64, room: u64) -> Compared<u8> {
    let lent = image.to_vec();
    let mut second_image = lent.clone();
    let input = || format!("  cards {cards}, room {room}\n") + &bytes("lent", &lent);
    let proved = proved::make(run.format, image, cards, room);
    let second = run.format.make_fresh(&mut second_image, cards, room);
    same("make", proved, second, input)?;
    same("made image", &*image, &second_image[..], input)?;
    run.number(proved);
    run.seen_at(Kind::Made, usize::from(proved != 0));
    Ok(proved)
}

/// Making fresh images of any numbers in any number of bytes.
pub fn making(run: &mut Run, random: &mut Random) -> Compared<()> {
    let format = run.format;
    let (step, past) = (
        [16, 32, 96, 192, 224, 352, 864, 1_008, 1_024],
        [0, 15, 17, 240, 1_040],
    );
    for _ in 0..40 {
        let any = random.number();
        let cards = random.pick(&[
            0,
            1,
            2,
            12,
            13,
            15,
            31,
            32,
            65,
            127,
            128,
            129,
            1 << 16,
            (1 << 32) + 1,
            any,
        ]);
        let (right, wrong) = (random.pick(&step), random.pick(&past));
        let room = random.pick(&[right, right, wrong, (1 << 16) + 16, any]);
        let right = Layout::new(format, cards, room).map_or(size(format, 1, 16), Layout::size);
        let length = random.pick(&[0, 16, right, right, right, right + 1, right - 1]);
        make(run, &mut random.bytes(length), cards, room)?;
    }
    making_at_limits(run, random)
}

/// Making fresh images at the limits and beyond them, each in as many bytes
/// as it would have.
fn making_at_limits(run: &mut Run, random: &mut Random) -> Compared<()> {
    let format = run.format;
    let limits = [
        (generate::large(format), Kind::MadeLargest, 0),
        (generate::beyond(format), Kind::MadeBeyond, 14),
    ];
    for (shapes, kind, number) in limits {
        for (shape, (cards, room)) in shapes.into_iter().enumerate() {
            let mut lent = vec![random.byte(); size(format, cards, room)];
            if make(run, &mut lent, cards, room)? == number {
                run.seen_at(kind, shape);
            }
        }
    }
    Ok(())
}
