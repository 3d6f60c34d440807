//! What happens in a town as scenes of the crate `story`, for words and for pictures.

use lupaniele::{Answer, DeskId, Image, Lease, Mode, Number, Pair, Stamp, Version};
use second::Format;
use story::{Judged, Scene, Waiting};

use crate::checks::queue::Turn;
use crate::library::{self, Queue, QueueAnswer};

/// A number of the list; malformed for any other, which no function of the library gives.
pub fn number(number: u8) -> Number {
    Number::try_from(number).unwrap_or(Number::Malformed)
}

/// The desk and start in a number.
pub fn desk(number: u32) -> DeskId {
    Stamp::from_number(number.into()).desk_id()
}

/// A pair by its stamps.
pub fn pair(pair: second::Pair) -> Pair {
    let [s, x] = [pair.s, pair.x].map(Stamp::from_number);
    Pair::new(s, x)
}

/// The store judged a command of a version on an image, which is then the other.
pub fn judged(
    format: Format,
    command: &[u8],
    answer: &library::Answer,
    shown: &[u8],
    [before, after]: [&[u8]; 2],
) -> Scene {
    let [a, b, c, d, e, f, g] = answer.fields;
    let line = [answer.number.into(), a, b, c, d, e, f, g];
    let Some(told) = Answer::from_line(line) else {
        return Scene::Said(format!("the store answers {line:?}, which is no answer"));
    };
    let [before, after] = [before, after].map(|image| Image::check(image).ok());
    let (before, after) = (before.as_ref(), after.as_ref());
    let version = match format {
        Format::V1 => Version::One,
        Format::V2 => Version::Two,
    };
    let judged = Judged::new(version, command, told, shown, before, after);
    Scene::Judged(judged)
}

/// A request to a queue, and its answer.
pub fn turned(card: u16, turn: Turn, answer: &QueueAnswer, queue: &Queue) -> Scene {
    let (number, queue) = (number(answer.number), waiting(queue));
    match turn {
        Turn::Ask(asked, pair) => {
            let (pair, Some(mode)) = (self::pair(pair), Mode::from_number(asked)) else {
                return Scene::Said(format!(
                    "somebody asks in queue {card} in mode {asked}: {number}"
                ));
            };
            Scene::Asked {
                desk: pair.own(mode).desk_id(),
                card,
                mode,
                pair,
                upgrade: false,
                number,
                holds: answer.fields[0] == 1,
                largest: self::pair(second::Pair::new(answer.fields[1], answer.fields[2])),
                queue,
            }
        }
        Turn::Leave(leaves) => Scene::Left {
            desk: desk(leaves),
            card,
            lease: None,
            number,
            queue,
        },
        Turn::Lapse(lapses, term) => Scene::Left {
            desk: desk(lapses),
            card,
            lease: Some(lease(term)),
            number,
            queue,
        },
    }
}

fn lease(lease: library::Lease) -> Lease {
    Lease {
        period: lease.period,
        drift: lease.drift,
        begin: lease.begin,
        now: lease.now,
    }
}

/// Who stands in a queue.
fn waiting(queue: &Queue) -> Waiting {
    let count = usize::try_from(queue.kept[0]).unwrap_or(usize::MAX);
    let stamps = queue.s.iter().zip(&queue.x);
    let places = queue.modes.iter().zip(stamps).take(count);
    let standing = places.filter_map(|(mode, (s, x))| {
        let mode = Mode::from_number(*mode)?;
        Some((mode, pair(second::Pair::new(*s, *x)).own(mode).desk_id()))
    });
    standing.collect()
}

/// A recovery on an image, which is then the other, with these s and x for the cards.
pub fn recovered(
    who: DeskId,
    [s, x]: &[Vec<u64>; 2],
    answer: (u8, u64),
    [before, after]: [&[u8]; 2],
) -> Scene {
    let images = Image::check(before).ok().zip(Image::check(after).ok());
    let pairs = s
        .iter()
        .zip(x)
        .map(|(s, x)| pair(second::Pair::new(*s, *x)));
    Scene::Recovered {
        desk: who,
        pairs: (0..).zip(pairs).collect(),
        number: number(answer.0),
        line: answer.1 as usize,
        changes: images.map_or(Vec::new(), |(before, after)| {
            story::changes(&before, &after)
        }),
    }
}
