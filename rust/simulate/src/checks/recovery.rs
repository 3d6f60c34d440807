//! Recovery (rules 11.15 to 11.21): the updates that are due go through the
//! guard in order, up to the first that is refused. It is for version 1 (rule
//! 15.13).

use second::{Format, Pair};

use super::log::{due, read, Update};
use super::store::Store;
use super::{Check, Checked, Made};

/// The pair of a card, from the two lists that recovery is given (rule 11.16).
fn pair_of(card: u16, s: &[u64], x: &[u64]) -> Pair {
    let of = |list: &[u64]| list.get(usize::from(card)).copied().unwrap_or(0);
    Pair::new(of(s), of(x))
}

/// The text of a card and side as the image holds it (rules 2.4 and 2.5).
pub fn text_in(image: &[u8], cards: usize, room: usize, card: usize, side: usize) -> &[u8] {
    let at = 16 + 32 * card + 28 + 2 * side;
    let length = usize::from(image[at]) + 256 * usize::from(image[at + 1]);
    let body = 16 + 32 * cards + (2 * card + side) * room;
    &image[body..body + length.min(room)]
}

/// What one recovery was given and left.
#[derive(Clone, Copy, Debug)]
pub struct Recovery<'a> {
    /// The log.
    pub log: &'a [u8],
    /// The s and the x of each card.
    pub pairs: (&'a [u64], &'a [u64]),
    /// The number and the line.
    pub answer: (u8, u64),
    /// The image after.
    pub image: &'a [u8],
}

/// A recovery was answered. Its writes stand in the list (rule 11.20).
pub fn checked(made: &mut Made, store: &mut Store, recovery: Recovery) -> Checked {
    let Some(read) = read(recovery.log) else {
        made.same(Check::RefusedRecovery, recovery.image, &store.image[..])?;
        return made.same(Check::RecoveryNumber, recovery.answer, (23, 0));
    };
    let due = due(&read.records);
    let before: Vec<[Vec<u8>; 5]> = store.cards.iter().map(|card| card.texts.clone()).collect();
    let mut expected = (0, 0);
    let mut sent: &[Update] = &due;
    for (place, update) in due.iter().enumerate() {
        let (s, x) = recovery.pairs;
        let command = store.write_of(update, pair_of(update.card, s, x));
        let number = store.recovering(made, &command)?.number;
        if number != 0 {
            (expected, sent) = ((number, update.line), &due[..place]);
            break;
        }
    }
    if store.format == Format::V1 {
        texts(made, store, (&before, sent), recovery.image)?;
    }
    made.same(Check::RecoveryNumber, recovery.answer, expected)?;
    store.same_image(made, recovery.image)
}

/// The text of each card and language is that of the last update that was
/// sent and not refused, or what it was before (rule 11.21).
fn texts(
    made: &mut Made,
    store: &Store,
    (before, sent): (&[[Vec<u8>; 5]], &[Update]),
    image: &[u8],
) -> Checked {
    for (card, texts) in before.iter().enumerate() {
        for (side, text) in texts.iter().enumerate().take(2) {
            let of = |update: &&Update| {
                usize::from(update.card) == card && usize::from(update.side) == side + 1
            };
            let last = sent.iter().rev().find(of);
            let expected = last.map_or(&text[..], |update| &update.text);
            let found = text_in(image, before.len(), store.room, card, side);
            made.hold(Check::Recovered, found == expected, || {
                format!(
                    "card {card}, side {}: {found:?}, and {expected:?} was committed",
                    side + 1
                )
            })?;
        }
    }
    Ok(())
}
