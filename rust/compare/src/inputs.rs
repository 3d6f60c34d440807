//! Inputs to the program, and what it has to print for each by the second
//! program and by the library, as files: for those who run it by other means
//! than its binary.

use std::fs;
use std::path::Path;

use second::random::Random;
use second::short::{fresh, on_card, put_texts};
use second::trials::{self, Second, Store, Trial};
use second::Format::V1;
use second::{Format, Layout, Queue};

use crate::outputs::{self, LONGEST};
use crate::proved;
use crate::run::{bytes, same, Compared};

/// What a trial sends: the image before the first command, and the commands.
fn sent(store: Store, trial: &Trial) -> Compared<(Vec<u8>, Vec<Vec<u8>>)> {
    let (mut before, mut commands) = (Vec::new(), Vec::new());
    let answer = |format: Format, image: &mut [u8], command: &[u8], reply: &mut [u8]| {
        if commands.is_empty() {
            before = image.to_vec();
        }
        commands.push(command.to_vec());
        format.answer(image, command, reply)
    };
    let turn = |queue: &mut Queue, turn| queue.turn(turn);
    trials::run(&mut Second { answer, turn }, store, trial)?;
    Ok((before, commands))
}

/// Every trial of a card of version 1, each on a card of its own of one image,
/// one behind the other; commands that no stream can have are left out.
pub fn trials() -> Compared<Vec<u8>> {
    let [store, ..] = trials::stores(V1);
    let all = trials::trials(V1, store.room);
    let mut image = fresh(all.len() as u64, store.room);
    let layout = Layout::of_header(V1, &image).ok_or("no header")?;
    let mut stream = Vec::new();
    for (card, trial) in (0..).zip(&all) {
        let (before, commands) = sent(store, trial)?;
        let own = Layout::of_header(V1, &before).ok_or("no header")?;
        let entry = own.entry(&before, 0).ok_or("no entry")?;
        let texts = layout
            .languages()
            .map(|language| own.text(&before, 0, language));
        let texts: Vec<&[u8]> = texts.map(Option::unwrap_or_default).collect();
        put_texts(layout, &mut image, card, entry, &texts);
        let whole = commands.into_iter().filter(|command| is_whole(command));
        stream.extend(whole.flat_map(|command| on_card(card, command)));
    }
    Ok([image, stream].concat())
}

/// Whether a stream takes these bytes as one command (rule 8.1).
fn is_whole(command: &[u8]) -> bool {
    let walked = second::walk(V1, command, 0);
    walked.commands == 1 && !walked.cut
}

/// Writes the inputs and the outputs into a folder: `trials.stdin`,
/// `trials.stdout`, and so many random ones by their places.
pub fn write(folder: &Path, count: u64) -> Compared<()> {
    let mut random = Random::new(4);
    one(folder, "trials", &trials()?)?;
    for at in 0..count {
        let input = outputs::input(&mut random, at % outputs::SORTS);
        one(folder, &at.to_string(), &input)?;
    }
    Ok(())
}

fn one(folder: &Path, name: &str, input: &[u8]) -> Compared<()> {
    let file = |ending: &str| folder.join(format!("{name}.{ending}"));
    let (output, mut out) = (second::output(input), vec![0; LONGEST]);
    let length = proved::output(input, &mut out) as usize;
    let told = || bytes("input", input);
    same("output", out.get(..length), Some(output.as_bytes()), told)?;
    let written = fs::write(file("stdin"), input);
    let written = written.and_then(|()| fs::write(file("stdout"), output));
    written.map_err(|why| format!("{}: {why}", folder.display()))
}
