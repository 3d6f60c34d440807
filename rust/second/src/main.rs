//! Reads standard input and prints what the store's program prints (rules 8.3
//! to 8.5).

#![forbid(unsafe_code)]

use std::io::{stdin, stdout, Read, Write};
use std::process::ExitCode;

use second::program::{output, INPUT_LIMIT};

fn main() -> ExitCode {
    let one_too_many = INPUT_LIMIT as u64 + 1;
    let mut input = Vec::new();
    // Where reading fails, the input is what came before.
    let _ = stdin().lock().take(one_too_many).read_to_end(&mut input);
    let mut out = stdout().lock();
    let printed = out.write_all(output(&input).as_bytes());
    match printed.and_then(|()| out.flush()) {
        Ok(()) => ExitCode::SUCCESS,
        Err(_) => ExitCode::FAILURE,
    }
}
