use lupaniele::{Image, MOST_CARDS, Version, rooms};

/// Which number of an image's shape is wrong.
///
/// ```
/// use forms::{Fault, shape_fault};
/// use lupaniele::Version;
/// assert!(matches!(shape_fault(Version::One, 1, 60), Some((Fault::Room, _))));
/// ```
#[derive(Clone, Copy, Debug, PartialEq, Eq)]
pub enum Fault {
    /// The number of cards.
    Cards,
    /// The room.
    Room,
}

/// Why no image of a version has so many cards with this room, and what would be right; nothing where one has.
///
/// ```
/// use forms::shape_fault;
/// use lupaniele::Version;
/// let (_, told) = shape_fault(Version::Two, 128, 1_024).unwrap();
/// assert_eq!(told, "cards 128: with room 1024 an image of version 2 has at most 12 cards");
/// assert_eq!(shape_fault(Version::Two, 12, 1_024), None);
/// ```
#[must_use]
pub fn shape_fault(version: Version, cards: u16, room: u16) -> Option<(Fault, String)> {
    let made = |cards: u16| Image::make(version, cards, room).is_ok();
    if made(cards) {
        return None;
    }
    if !rooms().any(|right| right == room) {
        return Some((Fault::Room, room_told(room)));
    }
    let most = (1..=MOST_CARDS).rev().find(|cards| made(*cards));
    let told = match most {
        Some(most) if cards > 0 => {
            format!(
                "cards {cards}: with room {room} an image of {version} has at most {most} cards"
            )
        }
        _ => format!("cards {cards}: an image has 1 to {MOST_CARDS} cards"),
    };
    Some((Fault::Cards, told))
}

fn room_told(room: u16) -> String {
    let (below, above) = (
        rooms().rev().find(|right| *right < room),
        rooms().find(|right| *right > room),
    );
    let (first, last) = (
        rooms().next().unwrap_or(0),
        rooms().next_back().unwrap_or(0),
    );
    match (below, above) {
        (Some(below), Some(above)) => format!(
            "room {room}: a text has room for a multiple of {first} bytes, such as {below} or {above}"
        ),
        _ => format!(
            "room {room}: a text has room for {first} to {last} bytes, a multiple of {first}"
        ),
    }
}
