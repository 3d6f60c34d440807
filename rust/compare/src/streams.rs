//! Streams, cut anywhere and damaged: what stands at a place, and where the
//! walk ends.

use second::generate;
use second::random::Random;
use second::{standing_at, walk, Standing};

use crate::coverage::{Kind, Run};
use crate::proved;
use crate::run::{bytes, same, Compared};

/// Streams of any sort, and one of them cut at every byte.
pub fn any(run: &mut Run, random: &mut Random) -> Compared<()> {
    let format = run.format;
    let image = generate::sound_image(format, random);
    for _ in 0..10 {
        let stream = generate::stream(format, random, &image);
        let cut = random.index(stream.len() + 1);
        for stream in [&stream[..], &stream[..cut]] {
            walks(run, stream)?;
            let (length, any) = (stream.len(), random.number() as usize);
            let far = [any, usize::MAX];
            let fixed = format.command_bytes();
            let before = length.saturating_sub(fixed);
            let near = [0, 1, fixed, length, length + 1, before];
            for at in near.into_iter().chain(far) {
                steps(run, stream, at)?;
            }
        }
    }
    let stream = generate::stream(format, random, &image);
    for length in 0..=stream.len() {
        walks(run, &stream[..length])?;
    }
    run.seen(Kind::EveryCut);
    Ok(())
}

/// The walk's end, and each step on the way.
fn walks(run: &mut Run, stream: &[u8]) -> Compared<()> {
    let format = run.format;
    let second = walk(format, stream, 0);
    let (proved, told) = (proved::end(format, stream), second.place as u64);
    same("end of the walk", proved, told, || bytes("stream", stream))?;
    run.case();
    run.seen_at(Kind::Walks, usize::from(second.cut));
    let mut at = 0;
    for _ in 0..second.commands {
        at = steps(run, stream, at)?;
    }
    Ok(())
}

/// What stands at a place.
fn steps(run: &mut Run, stream: &[u8], at: usize) -> Compared<usize> {
    let format = run.format;
    let second = match standing_at(format, stream, at) {
        Standing::Command { next, .. } => (true, next as u64),
        Standing::End | Standing::Cut => (false, at as u64),
    };
    let input = || bytes("stream", stream) + &format!("  at {at}\n");
    let proved = proved::next(format, stream, at as u64);
    same("what stands at a place", proved, second, input)?;
    run.case();
    run.seen_at(Kind::Places, usize::from(!second.0));
    Ok(second.1 as usize)
}
