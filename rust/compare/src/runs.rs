//! Runs of streams: the proved library's run against the second program
//! command by command, with room for any number of lines, and gone on with from
//! where it stopped.

use second::generate;
use second::random::Random;
use second::{standing_at, Format, Standing};

use crate::coverage::{Kind, Run};
use crate::proved;
use crate::run::{bytes, same, Compared};

/// The number, and the seven fields.
type Line = [u64; 8];

/// Streams of any sort, cut anywhere, on images that are sound and damaged.
pub fn any(run: &mut Run, random: &mut Random) -> Compared<()> {
    let format = run.format;
    let mut image = generate::sound_image(format, random);
    let stream = generate::stream(format, random, &image);
    let cut = match random.below(3) {
        0 => random.index(stream.len() + 1),
        _ => stream.len(),
    };
    if random.one_in(8) {
        let at = random.index(image.len());
        image[at] ^= random.byte();
    }
    let length = random.index(1100);
    let reply = random.bytes(length);
    whole(run, &image, &stream[..cut], &reply)?;
    in_parts(run, random, &image, &stream[..cut], &reply)
}

/// The second program, command by command: the lines, where it stopped, and
/// what is left in the image and in the reply buffer.
fn told(
    format: Format,
    image: &mut [u8],
    stream: &[u8],
    reply: &mut [u8],
    most: usize,
) -> (Vec<Line>, usize) {
    let (mut lines, mut at) = (Vec::new(), 0);
    while lines.len() < most {
        let Standing::Command { next, .. } = standing_at(format, stream, at) else {
            break;
        };
        let given = format.answer(image, &stream[at..next], reply);
        let [s, x, desk, transaction, edition, from, length] = given.fields.numbers();
        lines.push([
            given.number.into(),
            s,
            x,
            desk,
            transaction,
            edition,
            from,
            length,
        ]);
        at = next;
    }
    (lines, at)
}

/// One run with so many numbers to write to: what it leaves is what is told.
fn compared(
    format: Format,
    image: &mut Vec<u8>,
    stream: &[u8],
    reply: &mut Vec<u8>,
    room: usize,
) -> Compared<(usize, usize)> {
    let before = (image.clone(), reply.clone());
    let (mut image_told, mut reply_told) = before.clone();
    let (lines, end) = told(format, &mut image_told, stream, &mut reply_told, room / 8);
    let mut expected = vec![0x5a5a; room];
    for (place, line) in expected.chunks_exact_mut(8).zip(&lines) {
        place.copy_from_slice(line);
    }
    let mut written = vec![0x5a5a; room];
    let ran = proved::run(format, image, stream, reply, &mut written);
    let input = || {
        bytes("image", &before.0)
            + &bytes("stream", stream)
            + &bytes("reply", &before.1)
            + &format!("  room for {room} numbers\n")
    };
    same(
        "how many, and where it stopped",
        ran,
        (lines.len(), end),
        input,
    )?;
    same("the lines of a run", &written, &expected, input)?;
    same("the image after a run", &*image, &image_told, input)?;
    same("the reply buffer after a run", &*reply, &reply_told, input)?;
    Ok((lines.len(), end))
}

/// A whole stream, with room for every line and one number more.
fn whole(run: &mut Run, image: &[u8], stream: &[u8], reply: &[u8]) -> Compared<()> {
    let (mut image, mut reply) = (image.to_vec(), reply.to_vec());
    let room = (stream.len() / run.format.command_bytes() + 1) * 8 + 1;
    compared(run.format, &mut image, stream, &mut reply, room)?;
    run.case();
    run.seen_at(Kind::Runs, 0);
    Ok(())
}

/// The same stream with too little room, over and over from where it stopped:
/// it comes to the same end.
fn in_parts(
    run: &mut Run,
    random: &mut Random,
    image: &[u8],
    stream: &[u8],
    reply: &[u8],
) -> Compared<()> {
    let (mut image, mut reply, mut at) = (image.to_vec(), reply.to_vec(), 0);
    loop {
        let room = random.index(40);
        let (count, end) = compared(run.format, &mut image, &stream[at..], &mut reply, room)?;
        run.case();
        run.seen_at(Kind::Runs, if room < 8 { 2 } else { 1 });
        at += end;
        if room >= 8 && count == 0 {
            return Ok(());
        }
    }
}
