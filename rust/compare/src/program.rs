//! The program's binary against the second program's output, on whole inputs.

use std::fs::{self, File};
use std::io::Write;
use std::path::{Path, PathBuf};
use std::process::{Command, ExitStatus, Stdio};
use std::time::Duration;

use second::generate;
use second::program::INPUT_LIMIT;
use second::random::Random;
use second::short::{fresh, fresh_of};
use second::Format::{V1, V2};
use second::Layout;

use crate::coverage::{Kind, Run};
use crate::outputs;
use crate::run::{bytes, same, Compared};

/// The program's binary, and the file through which it gets its inputs, which
/// is gone at the end.
pub struct Program {
    binary: PathBuf,
    file: PathBuf,
}

impl Program {
    /// The program where `tools/build` leaves it. No two at a time have the
    /// same number.
    pub fn new(number: u64) -> Program {
        let name = format!("lupaniele-compare-{}-{number}", std::process::id());
        let top = Path::new(env!("CARGO_MANIFEST_DIR")).join("../..");
        Program {
            binary: top.join("target/bin/cards"),
            file: std::env::temp_dir().join(name),
        }
    }

    /// What the binary prints.
    fn printed(&self, input: &[u8]) -> Compared<String> {
        let failed = |error: std::io::Error| {
            format!("{}: {error} (tools/build builds it)", self.binary.display())
        };
        fs::write(&self.file, input).map_err(failed)?;
        let output = Command::new(&self.binary)
            .stdin(File::open(&self.file).map_err(failed)?)
            .stderr(Stdio::inherit())
            .output()
            .map_err(failed)?;
        let told = || bytes("standard input", input);
        same("exit status", output.status.code(), Some(0), told)?;
        Ok(String::from_utf8_lossy(&output.stdout).into_owned())
    }

    /// How the binary ends whose output nobody reads: its pipe is closed before
    /// it gets its input. The signal is let through, or ignored.
    fn unread(&self, input: &[u8], ignored: bool) -> Compared<ExitStatus> {
        let failed = |error: std::io::Error| format!("a closed pipe: {error}");
        let trap = if ignored { "trap '' PIPE; " } else { "" };
        let mut child = Command::new("sh")
            .arg("-c")
            .arg(format!("{trap}exec \"$0\""))
            .arg(&self.binary)
            .stdin(Stdio::piped())
            .stdout(Stdio::piped())
            .spawn()
            .map_err(failed)?;
        drop(child.stdout.take());
        if let Some(mut stdin) = child.stdin.take() {
            stdin.write_all(input).map_err(failed)?;
        }
        for _ in 0..10_000 {
            if let Some(status) = child.try_wait().map_err(failed)? {
                return Ok(status);
            }
            std::thread::sleep(Duration::from_millis(1));
        }
        child.kill().map_err(failed)?;
        Err("a closed pipe: the program does not end".to_owned())
    }

    /// Output that nobody reads ends the program by the write that fails, with
    /// status 0, whether it starts with the signal let through or ignored.
    fn closed_pipes(&self, run: &mut Run, input: &[u8]) -> Compared<()> {
        let told = || bytes("standard input", input);
        for (at, ignored) in [false, true].into_iter().enumerate() {
            let status = self.unread(input, ignored)?;
            same("exit status", status.code(), Some(0), told)?;
            run.seen_at(Kind::ClosedPipes, at);
        }
        Ok(())
    }

    /// What both print for an input.
    pub fn output(&self, run: &mut Run, input: &[u8]) -> Compared<String> {
        let (proved, second) = (self.printed(input)?, second::output(input));
        let lent = || bytes("standard input", input);
        same("program", &proved, &second, lent)?;
        run.seen(Kind::ExitStatus);
        let kind = outputs::ending(&proved);
        run.seen_at(Kind::Outputs, kind);
        if let Some(past @ 0..2) = input.len().checked_sub(INPUT_LIMIT) {
            run.seen_at(Kind::InputLengths, past);
        }
        if front_of_version_2(input) {
            same("program on version 2", proved.as_str(), "bad store\n", lent)?;
            run.seen_at(Kind::OtherFronts, 0);
        }
        let front = Layout::of_header(V1, input).map(|layout| (layout.cards(), layout.room()));
        let large = FRONTS
            .iter()
            .position(|&(cards, room)| front == Some((cards as usize, room as usize)));
        if let (Some(at), 2 | 3) = (large, kind) {
            run.seen_at(Kind::LargeFronts, at);
        }
        Ok(proved)
    }
}

impl Drop for Program {
    fn drop(&mut self) {
        let _ = fs::remove_file(&self.file);
    }
}

/// Whether a sound image of version 2 stands in front of an input that is not
/// too long.
pub fn front_of_version_2(input: &[u8]) -> bool {
    let size = Layout::of_header(V2, input).map(Layout::size);
    let front = size.and_then(|size| input.get(..size));
    input.len() <= INPUT_LIMIT && front.is_some_and(|front| V2.is_sound(front))
}

/// The edges of an input's length, and of what an image leaves of it; then the
/// sorts of inputs with long outputs.
const EDGES: u64 = LENGTHS + outputs::SORTS;
const LENGTHS: u64 = 12 + 2 * FRONTS.len() as u64;

/// N and C of images that leave room for twenty commands in an input, for two,
/// and for none.
const FRONTS: [(u64, u64); 4] = [(31, 1_024), (73, 432), (62, 512), (89, 352)];

/// An input of any sort, its length at an edge or not.
fn input(random: &mut Random, edge: u64) -> Vec<u8> {
    let mut input = match random.below(24) {
        0 => fresh(1, 16),
        1 => generate::sound_image(V2, random),
        2 => fresh_of(V2, 1, 16),
        _ => generate::image(V1, random),
    };
    match edge {
        0 => input.truncate(0),
        1 => input.truncate(15),
        2 | 3 => input.truncate(16),
        4 | 5 => input.truncate(input.len().saturating_sub(1)),
        6..=8 => {
            let image = generate::sound_image(V1, random);
            return filled(random, image, INPUT_LIMIT + 7 - edge as usize);
        }
        9 => return random.bytes(INPUT_LIMIT + 1),
        10 | 11 => {}
        LENGTHS..EDGES => return outputs::input(random, edge - LENGTHS),
        12..LENGTHS => {
            let (cards, room) = FRONTS[(edge - 12) as usize % FRONTS.len()];
            let image = generate::sound_image_of(V1, random, cards, room);
            let past = (edge - 12) as usize / FRONTS.len();
            return filled(random, image, INPUT_LIMIT + past);
        }
        _ => {
            let image = input.clone();
            for _ in 0..random.below(4) {
                let format = if random.one_in(8) { V2 } else { V1 };
                input.extend(generate::stream(format, random, &image));
            }
        }
    }
    if random.one_in(8) {
        let cut = random.index(input.len() + 1);
        input.truncate(cut);
    }
    input
}

/// An image with commands up to so many bytes, cut there.
fn filled(random: &mut Random, image: Vec<u8>, length: usize) -> Vec<u8> {
    let mut input = image.clone();
    while input.len() < length {
        input.extend(generate::command(V1, random, &image));
    }
    input.truncate(length);
    input
}

/// Runs the binary on so many inputs, two at a time.
pub fn any(run: &mut Run, random: &mut Random, inputs: u64) -> Compared<()> {
    let workers = [(1, random.number()), (2, random.number())];
    let runs = std::thread::scope(|scope| {
        let workers =
            workers.map(|(number, seed)| scope.spawn(move || worker(number, seed, inputs / 2)));
        workers.map(|worker| {
            worker
                .join()
                .unwrap_or_else(|panic| std::panic::resume_unwind(panic))
        })
    });
    for result in runs {
        run.add(&result?);
    }
    Ok(())
}

/// Half of the inputs, one after the other: each edge once, and then any.
fn worker(number: u64, seed: u64, inputs: u64) -> Compared<Run> {
    let program = Program::new(number);
    let (mut run, mut random) = (Run::default(), Random::new(seed));
    for count in 0..inputs {
        let any = random.below(10 * EDGES);
        let edge = if count < EDGES { count } else { any };
        let input = input(&mut random, edge);
        program.output(&mut run, &input)?;
        if count < 4 {
            program.closed_pipes(&mut run, &outputs::input(&mut random, count))?;
        }
        if number == 1 && count % 5_000 == 4_999 {
            let (done, all) = (2 * count + 2, 2 * inputs);
            println!("compare: the program, {done} inputs of {all}");
        }
    }
    Ok(run)
}
