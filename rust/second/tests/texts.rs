//! Structured texts: what is one, and whether two agree (rules 12.1 to 12.11).

use std::slice::from_ref;

use second::texts::{agree, read, unmatched, Drop, Why};

/// A section of these steps.
fn section(steps: &[Vec<u8>]) -> Vec<u8> {
    let mut bytes = vec![1, steps.len() as u8];
    bytes.extend(steps.concat());
    bytes
}

/// The steps of each kind.
fn words(text: &[u8]) -> Vec<u8> {
    [&[2, text.len() as u8], text].concat()
}

fn drop(unit: u8, tenths: u16) -> Vec<u8> {
    [&[3, unit], &tenths.to_le_bytes()[..]].concat()
}

fn inner(steps: &[Vec<u8>]) -> Vec<u8> {
    [vec![4], section(steps)].concat()
}

fn celsius(tenths: u16) -> Vec<u8> {
    drop(67, tenths)
}

fn fahrenheit(tenths: u16) -> Vec<u8> {
    drop(70, tenths)
}

/// A section with so many sections around it.
fn around(times: usize, steps: &[Vec<u8>]) -> Vec<u8> {
    (0..times).fold(section(steps), |text, _| [&[1, 1, 4], &text[..]].concat())
}

fn is_text(text: &[u8]) -> bool {
    read(text).is_some()
}

#[test]
fn the_bytes_of_a_text() {
    let text = section(&[words(b"drop"), celsius(2050), inner(&[fahrenheit(4010)])]);
    let bytes = [
        1, 3, 2, 4, b'd', b'r', b'o', b'p', 3, 67, 2, 8, 4, 1, 1, 3, 70, 170, 15,
    ];
    assert_eq!(text, bytes);
    let places: Vec<usize> = read(&text).map_or(vec![], |section| {
        section.steps.iter().map(|step| step.begins).collect()
    });
    assert_eq!(places, [2, 8, 12]);
}

#[test]
fn nesting() {
    assert!(is_text(&around(7, &[])));
    assert!(!is_text(&around(8, &[])));
    assert_eq!(agree(&around(8, &[]), &around(7, &[])), (18, 0));
    assert_eq!(agree(&around(7, &[]), &around(8, &[])), (19, 0));
}

#[test]
fn lengths_and_counts() {
    assert!(is_text(&section(&[])));
    assert!(is_text(&section(&[words(b"")])));
    assert!(is_text(&section(&[words(&[7; 255])])));
    assert!(is_text(&section(&vec![words(b""); 255])));
    let short = section(&vec![words(b""); 254]);
    assert!(!is_text(&[&[1, 255], &short[2..]].concat()));
    assert!(!is_text(&[&[1, 253], &short[2..]].concat()));
}

#[test]
fn cut_or_with_more() {
    let text = section(&[
        words(b"abc"),
        celsius(2050),
        inner(&[celsius(2050)]),
        words(b""),
    ]);
    assert!(is_text(&text));
    for length in 0..text.len() {
        assert!(!is_text(&text[..length]), "cut to {length}");
        assert_eq!(agree(&text[..length], &text), (18, 0));
        assert_eq!(agree(&text, &text[..length]), (19, 0));
    }
    for byte in 0..=255 {
        assert!(!is_text(&[&text[..], &[byte]].concat()));
    }
}

#[test]
fn first_bytes_and_units() {
    for byte in 0..=255 {
        let rest = [0, 0, 0];
        assert_eq!(is_text(&[byte, 0]), byte == 1);
        assert_eq!(is_text(&[1, 1, 4, byte, 0]), byte == 1);
        assert_eq!(is_text(&[1, 1, byte, 0]), byte == 2, "{byte}");
        let drop = [&[1, 1, 3, byte], &rest[..2]].concat();
        assert_eq!(is_text(&drop), byte == 67 || byte == 70);
    }
}

#[test]
fn the_same_drop_in_two_scales() {
    let english = section(&[celsius(2050)]);
    assert_eq!(agree(&english, &section(&[fahrenheit(4010)])), (0, 0));
    assert_eq!(agree(&english, &section(&[fahrenheit(4020)])), (20, 2));
}

#[test]
fn where_they_part() {
    let (quiet, loud) = (words(b""), words(b"abc"));
    let far = [fahrenheit(4020)];
    let cases = [
        (
            vec![loud.clone(), celsius(2050)],
            vec![quiet.clone(), far[0].clone()],
            7,
        ),
        (vec![quiet.clone()], vec![celsius(0)], 2),
        (vec![loud.clone(), quiet.clone()], vec![loud.clone()], 7),
        (vec![loud.clone()], vec![loud.clone(), quiet.clone()], 7),
        (
            vec![inner(&[loud.clone(), quiet.clone()]), quiet.clone()],
            vec![inner(from_ref(&loud)), quiet.clone()],
            10,
        ),
        (
            vec![inner(from_ref(&loud)), quiet.clone()],
            vec![inner(&[loud.clone(), quiet.clone()]), quiet.clone()],
            10,
        ),
        (vec![inner(&[celsius(2050)])], vec![inner(&far)], 5),
        (
            vec![inner(&[celsius(2050)]), celsius(2050)],
            vec![inner(&[fahrenheit(4010)]), far[0].clone()],
            9,
        ),
    ];
    for (first, second, place) in cases {
        assert_eq!(agree(&section(&first), &section(&second)), (20, place));
    }
}

#[test]
fn why_they_part() {
    let part = |first: &[Vec<u8>], second: &[Vec<u8>]| {
        let (first, second) = (read(&section(first)), read(&section(second)));
        let found = first
            .zip(second)
            .and_then(|(one, two)| unmatched(&one, &two));
        found.map(|found| (found.why, found.depth))
    };
    let deep = |steps: &[Vec<u8>]| vec![inner(steps)];
    let (say, drop) = (words(b"x"), celsius(1));
    assert_eq!(
        part(from_ref(&say), from_ref(&drop)),
        Some((Why::Kinds(2, 3), 1))
    );
    assert_eq!(part(from_ref(&drop), &[celsius(9)]), Some((Why::Far, 1)));
    assert_eq!(
        part(&deep(from_ref(&say)), &deep(&[])),
        Some((Why::FirstHasMore, 2))
    );
    assert_eq!(
        part(&deep(&[]), &deep(&[say])),
        Some((Why::SecondHasMore, 2))
    );
}

/// Fiftieths of a degree Fahrenheit, exact: 9/5 C + 32.
fn exact(drop: (u8, u16)) -> i64 {
    match drop {
        (67, tenths) => 9 * i64::from(tenths) + 1600,
        (_, tenths) => 5 * i64::from(tenths),
    }
}

/// Every pair of drops of these units whose exact difference is about a half:
/// how many are ties, and the ties that rounding refuses. Everywhere else the
/// rounded answer is the exact one.
fn ties(unit: u8, other: u8) -> (usize, Vec<(u16, u16)>) {
    let (scale, base) = if other == 67 { (9, 1600) } else { (5, 0) };
    let (mut ties, mut refused) = (0, vec![]);
    for tenths in 0..=u16::MAX {
        let one = exact((unit, tenths));
        let low = (one - base) / scale - 8;
        for near in low.max(0)..=(low + 16).min(65_535) {
            let near = near as u16;
            let difference = (one - exact((other, near))).abs();
            let drops = Drop::new(unit, tenths).zip(Drop::new(other, near));
            let is_near = drops.is_some_and(|(one, two)| one.is_near(two));
            if difference == 25 {
                ties += 1;
                if !is_near {
                    refused.push((tenths, near));
                }
            } else {
                assert_eq!(is_near, difference < 25, "{unit} {tenths}, {other} {near}");
            }
        }
    }
    (ties, refused)
}

#[test]
fn ties_that_rounding_refuses() {
    let (count, refused) = ties(67, 70);
    assert_eq!(count, 14_493);
    assert_eq!(
        refused,
        [(180, 639), (535, 1278), (1245, 2556), (2665, 5122)]
    );
    let (count, refused) = ties(70, 67);
    assert_eq!((count, refused.len()), (14_493, 4));
    let (count, refused) = ties(70, 70);
    assert_eq!((count, refused.len()), (131_062, 26));
    assert_eq!(ties(67, 67), (0, vec![]));
}
