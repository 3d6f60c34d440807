//! Streams: what stands at a place, and where the walk ends (rules 8.1 and
//! 8.2).

mod common;

use common::*;
use second::{standing_at, stream, walk, Reader, Standing, Walk};

/// Three commands of 55, 52 and 60 bytes; the second is malformed.
fn three() -> Vec<u8> {
    let mut stream = write_original(a_prime(), b"abc");
    stream.extend(command(77, SHARED, a()));
    stream.extend(write_original(b_prime(), b"eight by"));
    assert_eq!(stream.len(), 55 + 52 + 60);
    stream
}

#[test]
fn what_stands_at_a_place() {
    let stream = three();
    for (place, next) in [(0, 55), (55, 107), (107, 167)] {
        let bytes = &stream[place..next];
        assert_eq!(
            standing_at(V1, &stream, place),
            Standing::Command { bytes, next }
        );
    }
    assert_eq!(standing_at(V1, &stream, 167), Standing::End);
    for beyond in [168, 1_000, 1 << 32, usize::MAX - 52, usize::MAX] {
        assert_eq!(standing_at(V1, &stream, beyond), Standing::Cut);
    }
}

#[test]
fn an_empty_stream() {
    assert_eq!(standing_at(V1, &[], 0), Standing::End);
    assert_eq!(standing_at(V1, &[], 1), Standing::Cut);
    assert_eq!(walk(V1, &[], 0), ended(0, 0, false));
}

#[test]
fn a_command_that_is_not_whole() {
    let command = write_original(a_prime(), b"abc");
    for length in 1..command.len() {
        assert_eq!(standing_at(V1, &command[..length], 0), Standing::Cut);
    }
    let next = command.len();
    let bytes = &command[..];
    assert_eq!(
        standing_at(V1, &command, 0),
        Standing::Command { bytes, next }
    );
}

#[test]
fn offset_50_is_always_the_payloads_length() {
    // A verify command must have no payload; it is passed over with it.
    for length in [0_u16, 1, 255, 256, 0x8000, u16::MAX] {
        let mut stream = vec![0xff; 52 + usize::from(length)];
        stream[50..52].copy_from_slice(&length.to_le_bytes());
        assert_eq!(walk(V1, &stream, 0), ended(1, stream.len(), false));
        assert_eq!(walk(V1, &stream[..stream.len() - 1], 0), ended(0, 0, true));
        stream.push(0);
        assert_eq!(walk(V1, &stream, 0), ended(1, stream.len() - 1, true));
    }
}

fn ended(commands: usize, place: usize, cut: bool) -> Walk {
    Walk {
        commands,
        place,
        cut,
    }
}

#[test]
fn the_walk_of_a_stream_cut_anywhere() {
    let stream = three();
    for length in 0..=stream.len() {
        let (commands, place) = match length {
            0..=54 => (0, 0),
            55..=106 => (1, 55),
            107..=166 => (2, 107),
            _ => (3, 167),
        };
        let expected = ended(commands, place, place != length);
        assert_eq!(walk(V1, &stream[..length], 0), expected);
    }
}

#[test]
fn the_walk_from_a_place() {
    let stream = three();
    assert_eq!(walk(V1, &stream, 55), ended(2, 167, false));
    assert_eq!(walk(V1, &stream, 107), ended(1, 167, false));
    assert_eq!(walk(V1, &stream, 167), ended(0, 167, false));
    assert_eq!(walk(V1, &stream, 168), ended(0, 168, true));
    assert_eq!(walk(V1, &stream, usize::MAX), ended(0, usize::MAX, true));
}

#[test]
fn the_reader_stays_where_it_ended() {
    let mut stream = three();
    stream.extend([0; 51]);
    let mut reader = Reader::new(V1, &stream);
    let lengths: Vec<usize> = reader.by_ref().map(<[u8]>::len).collect();
    assert_eq!(lengths, [55, 52, 60]);
    assert_eq!((reader.place, reader.left_over()), (167, 51));
    assert_eq!(reader.next(), None);
    assert_eq!(reader.place, 167);
    assert_eq!(reader.standing(), Standing::Cut);
    reader.place = usize::MAX;
    assert_eq!((reader.next(), reader.left_over()), (None, 0));
}

#[test]
fn running_a_stream_answers_each_command_on_what_the_one_before_left() {
    let mut image = fresh(1, 16);
    let mut reply = [0; 16];
    let (answers, walk) = stream::run(V1, &mut image, &three(), &mut reply);
    let numbers: Vec<u8> = answers.iter().map(|answer| answer.number).collect();
    assert_eq!(numbers, [0, 1, 0]);
    assert_eq!(answers[2].fields.edition, 2);
    assert_eq!(walk, ended(3, 167, false));
    assert_eq!(image[48..56], *b"eight by");
}
