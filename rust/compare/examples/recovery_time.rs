//! What recovery costs on a full log: 200 records, 65,536 bytes. Prints the
//! shortest time of many runs, for the proved library and the second program.

use std::time::{Duration, Instant};

use compare::logs::{proved_append, proved_recover};
use second::short::{at, fresh};
use second::Recovered;

const LENGTH: usize = 65_536;
const RUNS: u32 = 300;

/// A full log: a begin, 198 updates of as many bytes as fit, and the commit,
/// or a begin that leaves the transaction uncommitted.
fn full_log(cards: u16, committed: bool) -> Vec<u8> {
    let mut log = vec![0; LENGTH];
    let mut append = |kind: u8, body: &[u8]| {
        assert_eq!(proved_append(&mut log, kind, body, u64::MAX), 0);
    };
    append(1, &1_u32.to_le_bytes());
    let room = LENGTH - 2_201 - 8;
    for number in 0..198 {
        let length = room / 198 + usize::from(number < room % 198);
        let mut body = vec![number as u8; length];
        body[..2].copy_from_slice(&((number as u16 / 2) % cards).to_le_bytes());
        body[2] = 1;
        append(2, &body);
    }
    match committed {
        true => append(3, &1_u32.to_le_bytes()),
        false => append(1, &2_u32.to_le_bytes()),
    }
    assert_eq!(log[0], 200);
    log
}

/// The shortest of many runs, each on a fresh image.
fn shortest(image: &[u8], mut run: impl FnMut(&mut [u8]) -> Recovered) -> Duration {
    let mut best = Duration::MAX;
    for _ in 0..RUNS {
        let mut image = image.to_vec();
        let started = Instant::now();
        let told = run(&mut image);
        best = best.min(started.elapsed());
        assert_eq!(told, Recovered { number: 0, line: 0 });
    }
    best
}

fn main() {
    let pairs = [at(1, 1); 15];
    for (name, cards, room, committed) in [
        ("198 updates due, N 15, C 1,024", 15, 1_024, true),
        ("198 updates due, N 1, C 1,024", 1, 1_024, true),
        ("198 updates, none committed", 15, 1_024, false),
    ] {
        let (log, image) = (full_log(cards, committed), fresh(cards.into(), room));
        let proved = shortest(&image, |image| proved_recover(&log, image, &pairs, &pairs));
        let second = shortest(&image, |image| second::recover(&log, image, &pairs, &pairs));
        println!("{name}: {proved:?}, second program {second:?}");
    }
}
