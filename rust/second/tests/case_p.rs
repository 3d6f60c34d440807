//! Case P (rules, section 8), to the byte.

mod common;

use second::output;
use second::trials::{case_p_input, CASE_P_OUTPUT};

#[test]
fn the_five_bytes_left_over_are_never_read() {
    let mut input = case_p_input();
    let start = input.len() - 5;
    for bytes in [[0; 5], [0xff; 5], *b"hello"] {
        input[start..].copy_from_slice(&bytes);
        assert_eq!(output(&input), CASE_P_OUTPUT);
    }
}

#[test]
fn the_program_prints_case_p() {
    assert_eq!(common::printed(&case_p_input()), CASE_P_OUTPUT);
}

/// The bytes written out, without the builder.
#[test]
fn the_input_is_laid_out_as_the_sheet_says() {
    let mut bytes = vec![0x52, 0x43, 0x31, 0, 1, 0, 1, 0, 16, 0, 0, 0, 0, 0, 0, 0];
    bytes.extend([0; 64]);
    let stamp_1 = [0, 0, 1, 0, 1, 0, 0, 0];
    let stamp_2 = [0, 0, 2, 0, 2, 0, 0, 0];
    let mut add = |act_and_mode: [u8; 2], s: [u8; 8], x: [u8; 8], edition: u8, text: &[u8]| {
        bytes.extend(act_and_mode);
        bytes.extend([0; 2]);
        bytes.extend(s);
        bytes.extend(x);
        bytes.extend([0; 28]);
        bytes.extend([edition, 0, text.len() as u8, 0]);
        bytes.extend_from_slice(text);
    };
    add([3, 2], stamp_1, stamp_1, 0, b"205");
    add([2, 1], stamp_2, stamp_1, 0, b"");
    add([4, 2], stamp_2, stamp_2, 1, b"401");
    add([3, 2], stamp_1, stamp_1, 0, b"205");
    bytes.extend([1, 2, 3, 4, 5]);
    assert_eq!(case_p_input(), bytes);
}
