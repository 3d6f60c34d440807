//! What the tests share: short names, random inputs, and a store that checks
//! what every answer must keep.

#![allow(dead_code, unused_imports)]

use std::io::Write;
use std::process::{Child, Command, Stdio};

pub mod check;

pub use second::generate;
pub use second::short::*;
use second::{Answer, Layout};

/// Answers a command with a reply buffer of C bytes and checks what every
/// answer must keep.
pub fn send(image: &mut [u8], command: &[u8]) -> Answer {
    let room = Layout::of_header(V1, image).map_or(16, Layout::room);
    check::answer(V1, image, command, &mut vec![0xaa; room])
}

/// The number of the answer to a command.
pub fn number(image: &mut [u8], command: &[u8]) -> u8 {
    send(image, command).number
}

/// The number of the answer to a command, on a copy of the image.
pub fn number_on(image: &[u8], command: &[u8]) -> u8 {
    number(&mut image.to_vec(), command)
}

/// The program, started with its three streams piped.
pub fn started() -> Child {
    Command::new(env!("CARGO_BIN_EXE_second"))
        .stdin(Stdio::piped())
        .stdout(Stdio::piped())
        .stderr(Stdio::piped())
        .spawn()
        .expect("the program starts")
}

/// What the program prints, run as a program.
pub fn printed(input: &[u8]) -> String {
    let mut child = started();
    let mut stdin = child.stdin.take().expect("standard input is piped");
    // Of an input that is too long the program need not read the rest.
    let _ = stdin.write_all(input);
    drop(stdin);
    let ended = child.wait_with_output().expect("the program ends");
    assert!(ended.status.success());
    assert!(ended.stderr.is_empty());
    String::from_utf8(ended.stdout).expect("the output is text")
}
