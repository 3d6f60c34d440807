//! Conversion from version 1 to version 2: of sound images into targets of the
//! right size, one off and beyond the limit, of damaged ones, and in the middle
//! of a list.

use second::generate;
use second::random::Random;
use second::short::fresh;
use second::Format::{V1, V2};
use second::{Language, Layout};

use crate::answers::{answer, reply_near};
use crate::coverage::{Kind, Run};
use crate::demand3::Event;
use crate::images::{self, size, soundness};
use crate::lists::sentences;
use crate::proved;
use crate::run::{bytes, same, Compared};
use crate::sessions::Desks;

/// Converts by both, and leaves the target as both left it.
fn convert(run: &mut Run, image: &[u8], target: &mut [u8]) -> Compared<u8> {
    let lent = target.to_vec();
    let mut second_target = lent.clone();
    let input = || bytes("image", image) + &format!("  target of {} bytes\n", lent.len());
    let proved = proved::convert(image, target);
    let second = second::convert(image, &mut second_target);
    same("convert", proved, second, input)?;
    same("converted", &*target, &second_target[..], input)?;
    run.number(proved);
    let at = match proved {
        0 => 0,
        9 => 1,
        _ => 2,
    };
    run.seen_at(Kind::Converted, at);
    if proved != 0 {
        same("nothing written", &*target, &lent[..], input)?;
        return Ok(proved);
    }
    same("converted: sound", soundness(run, target)?, true, input)?;
    kept(image, target)?;
    Ok(proved)
}

/// Every card is kept: its fields, its texts, none in the other languages.
fn kept(image: &[u8], target: &[u8]) -> Compared<()> {
    let input = || bytes("image", image) + &bytes("target", target);
    let layouts = Layout::of_sound(V1, image).zip(Layout::of_sound(V2, target));
    let (old, new) = layouts.ok_or_else(input)?;
    for card in 0..old.cards() as u16 {
        let (before, after) = (old.entry(image, card), new.entry(target, card));
        same("converted: entry", after, before, input)?;
        for language in new.languages() {
            let text = match language {
                Language::Translation(1..) => Some(&[][..]),
                _ => old.text(image, card, language),
            };
            let found = new.text(target, card, language);
            same("converted: text", found, text, input)?;
        }
    }
    Ok(())
}

/// The length that the target of an image has in version 2.
fn target_size(image: &[u8]) -> usize {
    let layout = Layout::of_header(V1, image);
    layout.map_or(144, |layout| {
        size(V2, layout.cards() as u64, layout.room() as u64)
    })
}

/// Images of any sort into targets of any length.
fn any_image(run: &mut Run, random: &mut Random) -> Compared<()> {
    let image = generate::image(V1, random);
    let right = target_size(&image);
    let any = random.index(right + 40);
    let lengths = [right, right, right - 1, right + 1, image.len(), 0, any];
    let at = random.index(lengths.len());
    let mut target = random.bytes(lengths[at]);
    let number = convert(run, &image, &mut target)?;
    if let (14, 2 | 3) = (number, at) {
        run.seen_at(Kind::ConvertedOff, at - 2);
    }
    Ok(())
}

/// A sound image with one byte changed: what is no longer sound gets 9, into
/// whatever target.
fn damaged(run: &mut Run, random: &mut Random) -> Compared<()> {
    let mut image = generate::sound_image(V1, random);
    let right = target_size(&image);
    let at = random.index(image.len());
    image[at] ^= 1 << random.below(8);
    let mut target = random.bytes(right);
    match convert(run, &image, &mut target)? {
        9 if at < 16 => run.seen_at(Kind::ConvertedUnsound, 0),
        9 if at < 16 + 32 => run.seen_at(Kind::ConvertedUnsound, 1),
        9 => run.seen_at(Kind::ConvertedUnsound, 2),
        _ => {}
    }
    let short = random.index(right);
    convert(run, &image, &mut random.bytes(short))?;
    let of_version_2 = generate::sound_image(V2, random);
    let mut target = random.bytes(of_version_2.len());
    same(
        "version 2 again",
        convert(run, &of_version_2, &mut target)?,
        9,
        || bytes("image", &of_version_2),
    )
}

/// N and C of images that are sound in version 1, and beyond the limit in
/// version 2.
const BEYOND: [(u64, u64); 5] = [(13, 1_024), (32, 400), (26, 512), (128, 96), (31, 1_024)];

/// Images whose target is at the limit, and beyond it.
fn limits(run: &mut Run, random: &mut Random) -> Compared<()> {
    let shapes = generate::large(V2);
    let at = random.index(shapes.len());
    let (cards, room) = shapes[at];
    let image = generate::sound_image_of(V1, random, cards, room);
    let mut target = vec![random.byte(); size(V2, cards, room)];
    if convert(run, &image, &mut target)? == 0 {
        run.seen_at(Kind::ConvertedLargest, at);
    }
    let at = random.index(BEYOND.len());
    let (cards, room) = BEYOND[at];
    let image = generate::sound_image_of(V1, random, cards, room);
    let mut target = vec![random.byte(); random.pick(&[size(V2, cards, room), 65_536])];
    if convert(run, &image, &mut target)? == 14 {
        run.seen_at(Kind::ConvertedBeyond, at);
    }
    Ok(())
}

/// A list of version 1 from a fresh image, a conversion, and a list of version
/// 2: demand 3 holds of all of them in one list, a translation of version 1
/// being language 0.
fn in_a_list(run: &mut Run, random: &mut Random) -> Compared<()> {
    let (cards, room) = random.pick(&[(1, 16), (1, 16), (2, 16), (2, 32)]);
    let mut image = vec![0xee; fresh(cards, room).len()];
    run.format = V1;
    images::make(run, &mut image, cards, room)?;
    let strict = random.one_in(2);
    let mut desks = Desks::new(V1, strict);
    let mut events = Vec::new();
    let before = random.between(5, 30);
    sent(run, random, &mut desks, &mut image, before, &mut events)?;
    run.format = V2;
    let mut target = vec![0xee; size(V2, cards, room)];
    let number = convert(run, &image, &mut target)?;
    same("converted in a list", number, 0, || bytes("image", &image))?;
    desks.converted();
    let after = random.between(5, 30);
    sent(run, random, &mut desks, &mut target, after, &mut events)?;
    sentences(run, cards as u16, &events)?;
    run.seen(Kind::ConvertedLists);
    Ok(())
}

/// Sends so many commands of desks.
fn sent(
    run: &mut Run,
    random: &mut Random,
    desks: &mut Desks,
    image: &mut [u8],
    count: u64,
    events: &mut Vec<Event>,
) -> Compared<()> {
    let format = run.format;
    for _ in 0..count {
        let command = desks.command(random, image);
        let lent = reply_near(format, random, image, &command);
        let mut reply = lent.clone();
        let told = answer(run, image, &command, &mut reply)?;
        events.push(Event::new(format, &command, lent, told, &reply));
    }
    Ok(())
}

/// Some of each.
pub fn any(run: &mut Run, random: &mut Random) -> Compared<()> {
    for _ in 0..10 {
        any_image(run, random)?;
        damaged(run, random)?;
    }
    limits(run, random)?;
    in_a_list(run, random)
}
