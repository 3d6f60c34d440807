//! How two answers are compared, and a difference is told.

use std::fmt::Debug;

/// What a comparison answers: the first difference is told with its input as
/// bytes, and stops the run.
pub type Compared<T> = Result<T, String>;

/// The two answers are the same, or the difference with the input.
pub fn same<T: PartialEq + Debug>(
    what: &str,
    proved: T,
    second: T,
    input: impl FnOnce() -> String,
) -> Compared<()> {
    match proved == second {
        true => Ok(()),
        false => Err(format!(
            "{what}\n  proved: {proved:x?}\n  second: {second:x?}\n{}",
            input()
        )),
    }
}

/// Named bytes of an input, for a difference.
pub fn bytes(name: &str, bytes: &[u8]) -> String {
    format!("  {name} ({} bytes): {bytes:02x?}\n", bytes.len())
}
