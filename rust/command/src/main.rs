//! The command `lupaniele`: looks at images and logs of the card store, changes them, and says why something is refused.
//! docs/TOUR.md leads through it. Exit status: 0 where all is accepted, sound or the same; 1 where something is refused,
//! unsound or different; 2 for a wrong use, and a file that cannot be read or written.
#![forbid(unsafe_code)]

mod args;
mod check;
mod compare;
mod convert;
mod explain;
mod help;
mod input;
mod json;
mod log;
mod make;
mod outcome;
mod play;
mod send;
mod show;

use std::ffi::OsString;
use std::io::{self, Write};
use std::process::ExitCode;

use outcome::{Done, Failed};

fn main() -> ExitCode {
    let words: Vec<OsString> = std::env::args_os().skip(1).collect();
    match help::called(&words) {
        Ok(done) => printed(&done),
        Err(Failed::Refused(told)) => failed(&told, 1),
        Err(Failed::Unusable(told)) => failed(&told, 2),
    }
}

/// Prints what came of it. A reader that has seen enough is no fault; a disk that is full is one, and then it is told
/// how a file that may be changed stands.
fn printed(done: &Done) -> ExitCode {
    let mut out = io::stdout().lock();
    match out.write_all(&done.out).and_then(|()| out.flush()) {
        Err(why) if why.kind() != io::ErrorKind::BrokenPipe => {
            let stands = match done.changed {
                true => format!("; it ends with: {}", done.last_line()),
                false => String::new(),
            };
            failed(&format!("the output cannot be written: {why}{stands}"), 2)
        }
        _ => ExitCode::from(done.status),
    }
}

/// Says why nothing came of it; if nobody can be told, the status says so.
fn failed(told: &str, status: u8) -> ExitCode {
    let _ = writeln!(io::stderr(), "lupaniele: {told}");
    ExitCode::from(status)
}
