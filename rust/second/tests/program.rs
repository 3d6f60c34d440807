//! The program's output for every kind of standard input (rules 8.3 to 8.5).

mod common;

use std::io::Read;

use common::*;
use second::output;

const TOO_LONG: &str = "too long\n";
const BAD_STORE: &str = "bad store\n";

/// An input: an image and a stream.
fn input(image: &[u8], stream: &[&[u8]]) -> Vec<u8> {
    let mut input = image.to_vec();
    stream.iter().for_each(|part| input.extend_from_slice(part));
    input
}

/// The library's output, which must be what the program prints.
fn both(input: &[u8]) -> String {
    let expected = output(input);
    assert_eq!(printed(input), expected);
    expected
}

#[test]
fn short_inputs() {
    let image = fresh(1, 16);
    assert_eq!(both(&[]), BAD_STORE);
    assert_eq!(both(&image[..15]), BAD_STORE);
    assert_eq!(both(&image[..16]), BAD_STORE);
    assert_eq!(both(&image[..79]), BAD_STORE);
    assert_eq!(both(&image), "cards 1\nend\n");
    for length in 0..80 {
        assert_eq!(output(&image[..length]), BAD_STORE);
    }
}

#[test]
fn one_byte_short_or_long_of_a_large_image() {
    let image = fresh(89, 352);
    assert_eq!(output(&image[..image.len() - 1]), BAD_STORE);
    assert_eq!(output(&image), "cards 89\nend\n");
    assert_eq!(output(&input(&image, &[b"x"])), "cards 89\ncut 1\n");
}

#[test]
fn an_unsound_image() {
    for (place, byte) in [
        (0, 0),
        (4, 2),
        (6, 0),
        (6, 129),
        (8, 24),
        (15, 1),
        (16, 1),
        (34, 1),
        (79, 1),
    ] {
        let mut image = fresh(1, 16);
        image[place] = byte;
        assert_eq!(output(&input(&image, &[&[0; 5_000]])), BAD_STORE);
    }
}

#[test]
fn a_header_that_asks_for_more_than_the_limit() {
    // 65,536 bytes of an image of 66,576, and the next above the limit.
    for (cards, room, more) in [(31, 1_024, 32), (63, 496, 64), (127, 240, 128)] {
        let mut image = fresh(cards, room);
        image[6] = more;
        image.resize(65_536, 0);
        assert_eq!(output(&image), BAD_STORE);
        image.push(0);
        assert_eq!(output(&image), TOO_LONG);
    }
}

/// The whole input has 65,536 bytes, the image among them.
#[test]
fn the_image_leaves_less_for_the_stream() {
    let verify = command(VERIFY, SHARED, a());
    for (cards, room, left) in [
        (31, 1_024, 1_040),
        (73, 432, 112),
        (62, 512, 48),
        (89, 352, 16),
    ] {
        let image = fresh(cards, room);
        assert_eq!(image.len() + left, 65_536);
        let stream = verify.repeat(left.div_ceil(52));
        let text = both(&input(&image, &[&stream[..left]]));
        let mut lines = vec![format!("cards {cards}")];
        lines.extend((1..=left / 52).map(|count| format!("{count} 0 4295032832 0 0 0 0 0 0")));
        lines.push(match left % 52 {
            0 => "end".to_owned(),
            cut => format!("cut {cut}"),
        });
        assert_eq!(text.lines().collect::<Vec<_>>(), lines);
        assert_eq!(both(&input(&image, &[&stream[..left], b"x"])), TOO_LONG);
    }
}

#[test]
fn the_header_says_how_long_the_image_is() {
    // One card more in the header takes 64 bytes of the stream as image.
    let mut image = fresh(1, 16);
    image[6] = 2;
    assert_eq!(output(&image), BAD_STORE);
    image.resize(80 + 64, 0);
    assert_eq!(output(&image), "cards 2\nend\n");
    image.push(0);
    assert_eq!(output(&image), "cards 2\ncut 1\n");
}

/// A fresh image and a stream that together have so many bytes: verify
/// commands, the last with the payload that is left.
fn filled(length: usize) -> (Vec<u8>, usize) {
    let mut bytes = fresh(1, 16);
    let verify = command(VERIFY, SHARED, a());
    let mut commands = 0;
    while bytes.len() + 2 * 52 <= length {
        bytes.extend_from_slice(&verify);
        commands += 1;
    }
    let payload = vec![7; length - bytes.len() - 52];
    bytes.extend(write_original(a_prime(), &payload));
    assert_eq!(bytes.len(), length);
    (bytes, commands + 1)
}

#[test]
fn the_longest_input() {
    let (bytes, commands) = filled(65_536);
    let text = both(&bytes);
    let lines: Vec<&str> = text.lines().collect();
    assert_eq!(lines.len(), commands + 2);
    assert_eq!(lines[0], "cards 1");
    assert_eq!(lines[1], "1 0 4295032832 0 0 0 0 0 0");
    assert_eq!(
        lines[commands],
        format!("{commands} 5 4295032832 0 0 0 0 0 0")
    );
    assert_eq!(lines[commands + 1], "end");
    assert!(text.ends_with("end\n"));
}

#[test]
fn one_byte_too_long() {
    let (bytes, _) = filled(65_537);
    assert_eq!(both(&bytes), TOO_LONG);
    assert_eq!(both(&vec![0; 65_537]), TOO_LONG);
    assert_eq!(both(&vec![0; 65_536]), BAD_STORE);
    assert_eq!(both(&vec![0; 1_000_000]), TOO_LONG);
}

#[test]
fn one_command_with_the_largest_payload() {
    let image = fresh(1, 16);
    let payload = 65_536 - 80 - 52;
    let write = write_original(a_prime(), &vec![1; payload]);
    assert_eq!(
        output(&input(&image, &[&write])),
        "cards 1\n1 5 0 0 0 0 0 0 0\nend\n"
    );
    let cut = &write[..write.len() - 1];
    assert_eq!(
        output(&input(&image, &[cut])),
        format!("cards 1\ncut {}\n", 52 + payload - 1)
    );
}

#[test]
fn a_stream_cut_in_the_fixed_part_and_in_the_payload() {
    let image = fresh(1, 16);
    let write = write_original(a_prime(), b"205");
    let first = "1 0 4295032832 4295032832 0 0 1 0 0";
    for left in 1..write.len() {
        let cut = input(&image, &[&write, &write[..left]]);
        assert_eq!(output(&cut), format!("cards 1\n{first}\ncut {left}\n"));
        let cut = input(&image, &[&write[..left]]);
        assert_eq!(output(&cut), format!("cards 1\ncut {left}\n"));
    }
}

#[test]
fn a_malformed_command_in_the_middle() {
    let write = write_original(a_prime(), b"205");
    let mut malformed = write_original(b_prime(), b"a payload that is passed over");
    malformed[20] = 1;
    let read = command(READ_ORIGINAL, SHARED, b());
    let stream: [&[u8]; 3] = [&write, &malformed, &read];
    let expected = "\
cards 2
1 0 4295032832 4295032832 0 0 1 0 0
2 1 0 0 0 0 0 0 0
3 0 8590065664 4295032832 0 0 1 0 3
end
";
    assert_eq!(both(&input(&fresh(2, 16), &stream)), expected);
}

#[test]
fn every_number_that_a_stream_can_get() {
    let mut long = fields(WRITE_ORIGINAL, EXCLUSIVE, b_prime());
    long.expected = MARK;
    let mut marked = fields(VERIFY, EXCLUSIVE, b_prime());
    marked.next = MARK;
    let mut last = fields(WRITE_ORIGINAL, EXCLUSIVE, b_prime());
    last.card = 1;
    let stream: [&[u8]; 7] = [
        &marked.with_payload(b""),
        &[0; 52],
        &on_card(2, command(VERIFY, SHARED, b())),
        &command(VERIFY, EXCLUSIVE, a_prime()),
        &command(VERIFY, EXCLUSIVE, b_prime()),
        &long.with_payload(&[1; 17]),
        &last.with_payload(b""),
    ];
    let mut image = fresh(2, 16);
    put_card(&mut image, 1, entry(65_535, 65_535), b"", b"");
    let stored = "8590065664 8590065664 32769 2147483649 0 0 0";
    let expected = format!(
        "cards 2\n1 0 {stored}\n2 1 0 0 0 0 0 0 0\n3 2 0 0 0 0 0 0 0\n4 3 {stored}\n\
         5 4 {stored}\n6 5 {stored}\n7 7 0 0 0 0 65535 65535 0\nend\n"
    );
    assert_eq!(both(&input(&image, &stream)), expected);
}

/// The reply buffer has C bytes, so a full text is read and 8 never comes.
#[test]
fn a_full_text_is_read() {
    let image = one_card(entry(1, 1), &[b'o'; 16], &[b't'; 16]);
    let original = command(READ_ORIGINAL, SHARED, a());
    let translation = command(READ_TRANSLATION, SHARED, a());
    let expected = "cards 1\n1 0 4295032832 0 0 0 1 1 16\n2 0 4295032832 0 0 0 1 1 16\nend\n";
    assert_eq!(both(&input(&image, &[&original, &translation])), expected);
}

#[test]
fn the_largest_fields_are_printed_whole() {
    let most = u64::MAX;
    let pair = second::Pair::new(most, most);
    let mut verify = fields(VERIFY, EXCLUSIVE, pair);
    verify.next = second::Mark::new(u16::MAX, u32::MAX);
    let kept = second::Entry {
        pair,
        ..entry(u16::MAX, u16::MAX)
    };
    let image = one_card(kept, b"", b"");
    let expected = format!("cards 1\n1 0 {most} {most} 65535 4294967295 65535 65535 0\nend\n");
    assert_eq!(
        output(&input(&image, &[&verify.with_payload(b"")])),
        expected
    );
}

#[test]
fn standard_output_that_is_closed_is_no_panic() {
    let mut child = started();
    drop(child.stdout.take());
    drop(child.stdin.take());
    let mut errors = String::new();
    let mut stderr = child.stderr.take().expect("standard error is piped");
    stderr.read_to_string(&mut errors).expect("errors are text");
    let status = child.wait().expect("the program ends");
    assert!(!status.success());
    assert_eq!(errors, "");
}
