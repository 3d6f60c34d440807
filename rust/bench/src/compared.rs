//! Before anything is measured: on every workload the straightforward version,
//! the tuned one, the proved library's run and the proved library command by
//! command leave the same lines, image and reply buffer.

use crate::clock::at_once_sound;
use crate::plain;
use crate::sides::{answer, sound, work, Lent, Side};
use crate::tuned;
use crate::workloads::{Work, Workload};
use second::Format;

/// Compares every workload; at the first difference it says which, and ends
/// the program.
pub fn or_exit(all: &[Workload]) {
    for workload in all {
        if let Err(what) = compared(workload) {
            println!("bench: {}: {what}", workload.name);
            std::process::exit(1);
        }
    }
}

fn compared(workload: &Workload) -> Result<(), &'static str> {
    let mut by_rust = Lent::new(workload);
    let mut by_tuned = Lent::new(workload);
    let mut by_ours = Lent::new(workload);
    work(Side::Rust, workload, &mut by_rust);
    work(Side::Tuned, workload, &mut by_tuned);
    work(Side::Ours, workload, &mut by_ours);
    if by_rust != by_ours {
        return Err("the proved library and the straightforward version differ");
    }
    if by_rust != by_tuned {
        return Err("the tuned and the straightforward version differ");
    }
    match workload.work {
        Work::Run(_) => {
            if by_rust.count != workload.commands() || by_rust.end != workload.stream.len() {
                return Err("not every command was answered");
            }
            let answered = &by_rust.lines[..by_rust.count];
            if answered.iter().any(|line| line[0] != workload.number) {
                return Err("a command got another number than it should");
            }
            if one_by_one(workload) != (by_ours.lines, by_ours.image, by_ours.reply) {
                return Err("the run and command by command differ");
            }
        }
        Work::Answer(_) if by_rust.lines[0][0] != workload.number => {
            return Err("the command got another number than it should");
        }
        Work::Check(format) if !at_once_sound(format, &by_rust.image) => {
            return Err("the image is not sound");
        }
        Work::Answer(_) | Work::Check(_) => {}
    }
    same_checks::<plain::V1>(Format::V1, &workload.image)?;
    same_checks::<plain::V2>(Format::V2, &workload.image)
}

/// Every check says the same of an image, whichever version it is of.
fn same_checks<V: plain::Version>(format: Format, image: &[u8]) -> Result<(), &'static str> {
    let ours = sound(format, image);
    let others = [
        V::is_sound(image, plain::zeros),
        tuned::is_sound::<V>(image),
    ];
    match others == [ours; 2] {
        true => Ok(()),
        false => Err("the checks of the image differ"),
    }
}

/// The lines, the image and the reply buffer after each command was answered
/// by itself.
fn one_by_one(workload: &Workload) -> (Vec<plain::Line>, Vec<u8>, Vec<u8>) {
    let mut lent = Lent::new(workload);
    let mut rest = &workload.stream[..];
    let mut count = 0;
    let format = workload.work.format();
    let fixed = format.command_bytes();
    while rest.len() >= fixed {
        let length = u16::from_le_bytes([rest[50], rest[51]]);
        let (command, more) = rest.split_at(fixed + usize::from(length));
        lent.lines[count] = answer(format, &mut lent.image, command, &mut lent.reply);
        count += 1;
        rest = more;
    }
    (lent.lines, lent.image, lent.reply)
}
