//! The four sides of a measurement, over the same lent bytes: the
//! straightforward version, the tuned one, the proved library, and the limit.

use crate::limit;
use crate::plain;
use crate::tuned;
use crate::workloads::{Work, Workload};
use lupaniele::raw;
use second::Format;

/// Who works.
#[derive(Clone, Copy, PartialEq, Eq)]
pub enum Side {
    Rust,
    Tuned,
    Ours,
    Limit,
}

impl Side {
    pub const ALL: [Side; 4] = [Side::Rust, Side::Tuned, Side::Ours, Side::Limit];
}

/// What is lent, and what a side left in it.
#[derive(Clone, PartialEq, Eq)]
pub struct Lent {
    pub image: Vec<u8>,
    pub reply: Vec<u8>,
    pub lines: Vec<plain::Line>,
    pub count: usize,
    pub end: usize,
}

impl Lent {
    /// What a workload lends: a place for each line, and one more that has to
    /// stay as it is.
    pub fn new(workload: &Workload) -> Lent {
        Lent {
            image: workload.image.clone(),
            reply: vec![0x5a; workload.reply],
            lines: vec![[0x5a5a; 8]; workload.commands() + 1],
            count: 0,
            end: 0,
        }
    }

    /// The same again, in the same memory.
    pub fn renew(&mut self, workload: &Workload) {
        self.image.copy_from_slice(&workload.image);
    }
}

/// A side does a workload's work.
#[inline(never)]
pub fn work(side: Side, workload: &Workload, lent: &mut Lent) {
    match workload.work.format() {
        Format::V1 => work_of::<plain::V1>(side, workload, lent),
        Format::V2 => work_of::<plain::V2>(side, workload, lent),
    }
}

fn work_of<V: plain::Version>(side: Side, workload: &Workload, lent: &mut Lent) {
    let (image, reply) = (&mut lent.image[..], &mut lent.reply[..]);
    let (stream, lines) = (&workload.stream[..], &mut lent.lines[..]);
    match (workload.work, side) {
        (Work::Run(_), Side::Rust) => {
            (lent.count, lent.end) = plain::run::<V>(image, stream, reply, lines);
        }
        (Work::Run(_), Side::Tuned) => {
            (lent.count, lent.end) = tuned::run::<V>(image, stream, reply, lines);
        }
        (Work::Run(format), Side::Ours) => {
            (lent.count, lent.end) = run(format, image, stream, reply, lines);
        }
        (Work::Run(_), Side::Limit) => {
            lent.count = limit::run::<V>(image, stream, reply, lines);
        }
        (Work::Answer(_), Side::Rust) => {
            lines[0] = plain::answer::<V>(image, workload.first(), reply);
        }
        (Work::Answer(_), Side::Tuned) => {
            lines[0] = tuned::answer::<V>(image, workload.first(), reply);
        }
        (Work::Answer(format), Side::Ours) => {
            lines[0] = answer(format, image, workload.first(), reply);
        }
        (Work::Check(_), Side::Rust) => {
            lent.count = V::is_sound(image, plain::zeros).into();
        }
        (Work::Check(_), Side::Tuned) => lent.count = tuned::is_sound::<V>(image).into(),
        (Work::Check(format), Side::Ours) => lent.count = sound(format, image).into(),
        (Work::Answer(_) | Work::Check(_), Side::Limit) => {
            lent.count = (limit::look(image) != 0).into();
        }
    }
}

/// Whether the bytes are a sound image of a version, by the proved library.
pub fn sound(format: Format, image: &[u8]) -> bool {
    match format {
        Format::V1 => raw::sound(image),
        Format::V2 => raw::sound_v2(image),
    }
}

/// One request, by the proved library.
pub fn answer(format: Format, image: &mut [u8], command: &[u8], reply: &mut [u8]) -> plain::Line {
    let mut fields = [0; 7];
    let number = match format {
        Format::V1 => raw::answer(image, command, reply, &mut fields),
        Format::V2 => raw::answer_v2(image, command, reply, &mut fields),
    };
    let [s, x, desk, transaction, edition, from, length] = fields;
    [
        number.into(),
        s,
        x,
        desk,
        transaction,
        edition,
        from,
        length,
    ]
}

/// A run, by the proved library: how many commands, and the byte where it
/// stopped.
fn run(
    format: Format,
    image: &mut [u8],
    stream: &[u8],
    reply: &mut [u8],
    lines: &mut [plain::Line],
) -> (usize, usize) {
    let lines = lines.as_flattened_mut();
    let mut end = 0;
    let count = match format {
        Format::V1 => raw::run(image, stream, reply, lines, &mut end),
        Format::V2 => raw::run_v2(image, stream, reply, lines, &mut end),
    };
    (count as usize, end as usize)
}
