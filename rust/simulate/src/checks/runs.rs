//! A run over a stream (rules 8.1, 8.2, 8.5 and 8.7): its commands one after
//! the other, as many as there is room for, with one reply buffer for all.

use second::Format;

use super::formed::head;
use super::store::Store;
use super::{Check, Checked, Made};
use crate::library::Answer;

/// Where a whole command at a place of a stream ends (rules 8.1, 8.2 and 15.6).
pub fn whole(format: Format, stream: &[u8], at: usize) -> Option<usize> {
    let rest = stream.get(at..)?;
    let length = usize::from(*rest.get(50)?) + 256 * usize::from(*rest.get(51)?);
    let end = head(format) + length;
    (rest.len() >= end).then_some(at + end)
}

/// Where the whole commands of a stream end (rule 8.2).
pub fn end(format: Format, stream: &[u8]) -> u64 {
    let mut at = 0;
    while let Some(end) = whole(format, stream, at) {
        at = end;
    }
    at as u64
}

/// The numbers of a line (rule 8.7).
pub const LINE: usize = 8;

/// What one run was given and what it left.
#[derive(Clone, Copy, Debug)]
pub struct Run<'a> {
    /// The version by which it was run.
    pub format: Format,
    /// The stream.
    pub stream: &'a [u8],
    /// The reply buffer before, and after.
    pub buffers: (&'a [u8], &'a [u8]),
    /// The numbers lent for lines before, and after.
    pub lines: (&'a [u64], &'a [u64]),
    /// How many commands were judged, and where it stopped.
    pub told: (u64, u64),
    /// The image after.
    pub image: &'a [u8],
}

/// The answer in a line.
pub fn answer_in(line: &[u64]) -> Answer {
    let mut fields = [0; 7];
    fields.copy_from_slice(&line[1..LINE]);
    Answer {
        number: line[0].min(255) as u8,
        fields,
    }
}

/// A run was answered. Where each of the commands that it judged ends.
pub fn checked(made: &mut Made, store: &mut Store, run: Run) -> Checked<Vec<usize>> {
    let Run { format, stream, .. } = run;
    let (before, after) = run.lines;
    let mut reply = run.buffers.0.to_vec();
    let (mut ends, mut at) = (Vec::new(), 0);
    while let Some(end) = whole(format, stream, at).filter(|_| before.len() / LINE > ends.len()) {
        let first = LINE * ends.len();
        let line = answer_in(&after[first..first + LINE]);
        store.in_run(made, format, &stream[at..end], &line, &mut reply)?;
        ends.push(end);
        at = end;
    }
    made.same(Check::RunEnd, run.told, (ends.len() as u64, at as u64))?;
    let rest = LINE * ends.len();
    made.hold(Check::RunLines, before[rest..] == after[rest..], || {
        format!("numbers behind line {} are changed", ends.len())
    })?;
    let same = run.buffers.1 == reply && run.image == store.image;
    made.hold(Check::RunBuffers, same, || {
        let differs = ["image", "reply buffer"][usize::from(run.buffers.1 != reply)];
        format!("the {differs} differs")
    })?;
    Ok(ends)
}
