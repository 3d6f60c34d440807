//! The straightforward version: plain Rust for the same rules, as one writes
//! it who has no proof to think of. It checks the image once for a run and
//! then judges each command in place.

pub const HEADER: usize = 16;
pub const MOST_AHEAD: u64 = 1_000_000;

/// What differs between the versions: how long an entry is, how many
/// translations a card has, where in an entry the original's length and, of
/// translation 0, what it was made from and its length stand, how long a
/// command is before its payload, and where its update pair stands.
pub trait Version {
    const ENTRY: usize;
    const TRANSLATIONS: usize;
    const ORIGINAL: usize;
    const FROMS: usize;
    const LENGTHS: usize;
    const FIXED: usize;
    const UPDATE: usize;

    /// Whether bytes are a sound image, by this test of zeros.
    fn is_sound(image: &[u8], zeros: impl Fn(&[u8]) -> bool) -> bool;
}

pub struct V1;

impl Version for V1 {
    const ENTRY: usize = 32;
    const TRANSLATIONS: usize = 1;
    const ORIGINAL: usize = 28;
    const FROMS: usize = 26;
    const LENGTHS: usize = 30;
    const FIXED: usize = 52;
    const UPDATE: usize = 20;

    fn is_sound(image: &[u8], zeros: impl Fn(&[u8]) -> bool) -> bool {
        is_sound(image, zeros)
    }
}

pub struct V2;

impl Version for V2 {
    const ENTRY: usize = 48;
    const TRANSLATIONS: usize = 4;
    const ORIGINAL: usize = 26;
    const FROMS: usize = 28;
    const LENGTHS: usize = 36;
    const FIXED: usize = 68;
    const UPDATE: usize = 52;

    fn is_sound(image: &[u8], zeros: impl Fn(&[u8]) -> bool) -> bool {
        is_sound_v2(image, zeros)
    }
}

/// The number, then s, x, commit desk, transaction, edition, translated-from
/// and length.
pub type Line = [u64; 8];

pub fn u16_at(bytes: &[u8], at: usize) -> u16 {
    u16::from_le_bytes(bytes[at..at + 2].try_into().unwrap())
}

fn u32_at(bytes: &[u8], at: usize) -> u32 {
    u32::from_le_bytes(bytes[at..at + 4].try_into().unwrap())
}

pub fn u64_at(bytes: &[u8], at: usize) -> u64 {
    u64::from_le_bytes(bytes[at..at + 8].try_into().unwrap())
}

#[derive(Clone, Copy, PartialEq, Eq)]
struct Pair {
    s: u64,
    x: u64,
}

impl Pair {
    fn read(bytes: &[u8], at: usize) -> Pair {
        Pair {
            s: u64_at(bytes, at),
            x: u64_at(bytes, at + 8),
        }
    }

    fn is_valid(self) -> bool {
        let valid = |stamp: u64| stamp == 0 || stamp >> 16 & 0xffff != 0;
        valid(self.s) && valid(self.x)
    }

    fn is_too_far_from(self, stored: Pair) -> bool {
        let far = |new: u64, old: u64| new >> 32 > (old >> 32) + MOST_AHEAD;
        far(self.s, stored.s) || far(self.x, stored.x)
    }
}

#[derive(Clone, Copy)]
struct Mark {
    desk: u16,
    transaction: u32,
}

impl Mark {
    fn is_whole(self) -> bool {
        (self.desk == 0) == (self.transaction == 0)
    }
}

/// An entry, with one of its translations.
#[derive(Clone, Copy)]
struct Entry {
    pair: Pair,
    mark: Mark,
    edition: u16,
    from: u16,
    original: u16,
    translation: u16,
}

impl Entry {
    fn read<V: Version>(bytes: &[u8], language: usize) -> Entry {
        Entry {
            pair: Pair::read(bytes, 0),
            mark: Mark {
                desk: u16_at(bytes, 16),
                transaction: u32_at(bytes, 20),
            },
            edition: u16_at(bytes, 24),
            from: u16_at(bytes, V::FROMS + 2 * language),
            original: u16_at(bytes, V::ORIGINAL),
            translation: u16_at(bytes, V::LENGTHS + 2 * language),
        }
    }

    fn write<V: Version>(&self, bytes: &mut [u8], language: usize) {
        let (from, length) = (V::FROMS + 2 * language, V::LENGTHS + 2 * language);
        bytes[0..8].copy_from_slice(&self.pair.s.to_le_bytes());
        bytes[8..16].copy_from_slice(&self.pair.x.to_le_bytes());
        bytes[16..18].copy_from_slice(&self.mark.desk.to_le_bytes());
        bytes[20..24].copy_from_slice(&self.mark.transaction.to_le_bytes());
        bytes[24..26].copy_from_slice(&self.edition.to_le_bytes());
        bytes[from..from + 2].copy_from_slice(&self.from.to_le_bytes());
        bytes[V::ORIGINAL..V::ORIGINAL + 2].copy_from_slice(&self.original.to_le_bytes());
        bytes[length..length + 2].copy_from_slice(&self.translation.to_le_bytes());
    }

    fn is_sound(&self, room: usize) -> bool {
        self.pair.is_valid()
            && self.mark.is_whole()
            && self.original as usize <= room
            && self.translation as usize <= room
            && self.from <= self.edition
            && (self.edition != 0 || self.original == 0)
            && (self.from != 0 || self.translation == 0)
    }
}

/// Whether bytes are zero, looked for one by one.
pub fn zeros(bytes: &[u8]) -> bool {
    bytes.iter().all(|&byte| byte == 0)
}

/// The same with every byte looked at, which a compiler makes a loop over
/// many bytes at a time of.
pub fn zeros_at_once(bytes: &[u8]) -> bool {
    bytes.iter().fold(0, |sum, &byte| sum | byte) == 0
}

/// How many cards an image has and their room, if its header and its length
/// are those of a version with such entries and so many bodies for a card.
fn shape(image: &[u8], version: u8, entry: usize, bodies: usize) -> Option<(usize, usize)> {
    if image.len() < HEADER
        || image[..6] != [0x52, 0x43, 0x31, 0, version, 0]
        || image[10..HEADER] != [0; 6]
    {
        return None;
    }
    let cards = u16_at(image, 6) as usize;
    let room = u16_at(image, 8) as usize;
    let size = HEADER + entry * cards + bodies * room * cards;
    let fits = (1..=128).contains(&cards)
        && (16..=1024).contains(&room)
        && room.is_multiple_of(16)
        && size <= 65_536
        && size == image.len();
    fits.then_some((cards, room))
}

/// Whether bytes are a sound image, by this test of zeros.
pub fn is_sound(image: &[u8], zeros: impl Fn(&[u8]) -> bool) -> bool {
    let Some((cards, room)) = shape(image, 1, V1::ENTRY, 2) else {
        return false;
    };
    let (front, bodies) = image.split_at(HEADER + V1::ENTRY * cards);
    let entries = front[HEADER..].chunks_exact(V1::ENTRY);
    entries
        .zip(bodies.chunks_exact(2 * room))
        .all(|(bytes, body)| {
            let entry = Entry::read::<V1>(bytes, 0);
            let (original, translation) = body.split_at(room);
            u16_at(bytes, 18) == 0
                && entry.is_sound(room)
                && zeros(&original[entry.original as usize..])
                && zeros(&translation[entry.translation as usize..])
        })
}

/// Whether bytes are a sound image of version 2, by this test of zeros.
pub fn is_sound_v2(image: &[u8], zeros: impl Fn(&[u8]) -> bool) -> bool {
    let Some((cards, room)) = shape(image, 2, V2::ENTRY, 5) else {
        return false;
    };
    let (front, bodies) = image.split_at(HEADER + V2::ENTRY * cards);
    let entries = front[HEADER..].chunks_exact(V2::ENTRY);
    entries
        .zip(bodies.chunks_exact(5 * room))
        .all(|(bytes, body)| {
            let edition = u16_at(bytes, 24);
            let original = u16_at(bytes, 26) as usize;
            let mark = Mark {
                desk: u16_at(bytes, 16),
                transaction: u32_at(bytes, 20),
            };
            Pair::read(bytes, 0).is_valid()
                && mark.is_whole()
                && u16_at(bytes, 18) == 0
                && bytes[44..] == [0; 4]
                && original <= room
                && (edition != 0 || original == 0)
                && zeros(&body[original..room])
                && (0..4).all(|language| {
                    let from = u16_at(bytes, 28 + 2 * language);
                    let length = u16_at(bytes, 36 + 2 * language) as usize;
                    let text = &body[(language + 1) * room..(language + 2) * room];
                    length <= room
                        && from <= edition
                        && (from != 0 || length == 0)
                        && zeros(&text[length..])
                })
        })
}

/// The language that a command of a version names.
pub fn language<V: Version>(bytes: &[u8]) -> usize {
    match V::TRANSLATIONS {
        1 => 0,
        _ => bytes[20] as usize,
    }
}

struct Command<'a> {
    act: u8,
    exclusive: bool,
    card: usize,
    verifier: Pair,
    update: Pair,
    expected: Mark,
    next: Mark,
    edition: u16,
    payload: &'a [u8],
}

impl<'a> Command<'a> {
    /// The command in these bytes, if they are one.
    fn parse<V: Version>(bytes: &'a [u8]) -> Option<Command<'a>> {
        let (fixed, payload) = bytes.split_at_checked(V::FIXED)?;
        let (act, mode) = (fixed[0], fixed[1]);
        let verifier = Pair::read(fixed, 4);
        let update = match Pair::read(fixed, V::UPDATE) {
            Pair { s: 0, x: 0 } => verifier,
            sent => sent,
        };
        let language = language::<V>(bytes);
        let translated = act == 2 || act == 4;
        if language >= V::TRANSLATIONS || language != 0 && !translated {
            return None;
        }
        if V::TRANSLATIONS > 1 && !zeros(&fixed[21..36]) {
            return None;
        }
        let mark = |at| Mark {
            desk: u16_at(fixed, at),
            transaction: u32_at(fixed, at + 2),
        };
        let command = Command {
            act,
            exclusive: mode == 2,
            card: u16_at(fixed, 2) as usize,
            verifier,
            update,
            expected: mark(36),
            next: mark(42),
            edition: u16_at(fixed, 48),
            payload,
        };
        let own = if mode == 2 { update.x } else { update.s };
        let writes = act == 3 || act == 4;
        let well_formed = (1..=5).contains(&act)
            && (mode == 1 || mode == 2)
            && (mode == 2 || !writes)
            && (act == 4) == (command.edition != 0)
            && (payload.is_empty() || writes)
            && payload.len() == u16_at(fixed, 50) as usize
            && own != 0
            && update.is_valid()
            && verifier.is_valid()
            && verifier.s <= update.s
            && verifier.x <= update.x
            && command.expected.is_whole()
            && command.next.is_whole();
        well_formed.then_some(command)
    }

    /// The first of the numbers 3, 17 and 4 to 8 that an entry gives it, or 0.
    fn number(&self, entry: &Entry, room: usize, lent: usize) -> u64 {
        let stored = entry.pair;
        if self.verifier.x < stored.x || self.exclusive && self.verifier.s < stored.s {
            3
        } else if self.update.is_too_far_from(stored) {
            17
        } else if self.expected.desk != entry.mark.desk
            || self.expected.transaction < entry.mark.transaction
        {
            4
        } else if self.payload.len() > room {
            5
        } else if self.act == 2 && (entry.from == 0 || entry.from != entry.edition)
            || self.act == 4 && self.edition != entry.edition
        {
            6
        } else if self.act == 3 && entry.edition == u16::MAX {
            7
        } else if self.act == 1 && entry.original as usize > lent
            || self.act == 2 && entry.translation as usize > lent
        {
            8
        } else {
            0
        }
    }
}

fn refused(number: u64) -> Line {
    [number, 0, 0, 0, 0, 0, 0, 0]
}

fn line(number: u64, entry: &Entry, length: u16) -> Line {
    [
        number,
        entry.pair.s,
        entry.pair.x,
        entry.mark.desk.into(),
        entry.mark.transaction.into(),
        entry.edition.into(),
        entry.from.into(),
        length.into(),
    ]
}

fn put_text(body: &mut [u8], text: &[u8]) {
    body[..text.len()].copy_from_slice(text);
    body[text.len()..].fill(0);
}

/// One command on an image that is sound.
fn step<V: Version>(image: &mut [u8], bytes: &[u8], reply: &mut [u8]) -> Line {
    let Some(command) = Command::parse::<V>(bytes) else {
        return refused(1);
    };
    let cards = u16_at(image, 6) as usize;
    let room = u16_at(image, 8) as usize;
    if command.card >= cards {
        return refused(2);
    }
    let (front, bodies) = image.split_at_mut(HEADER + V::ENTRY * cards);
    let at = HEADER + V::ENTRY * command.card;
    let language = language::<V>(bytes);
    let mut entry = Entry::read::<V>(&front[at..at + V::ENTRY], language);
    let number = command.number(&entry, room, reply.len());
    if number != 0 {
        return line(number, &entry, 0);
    }
    let size = (V::TRANSLATIONS + 1) * room;
    let body = &mut bodies[size * command.card..][..size];
    let (original, translations) = body.split_at_mut(room);
    let translation = match V::TRANSLATIONS {
        1 => translations,
        _ => &mut translations[room * language..][..room],
    };
    let payload = command.payload;
    let mut shown = 0;
    match command.act {
        1 => {
            shown = entry.original;
            reply[..shown as usize].copy_from_slice(&original[..shown as usize]);
        }
        2 => {
            shown = entry.translation;
            reply[..shown as usize].copy_from_slice(&translation[..shown as usize]);
        }
        3 => {
            put_text(original, payload);
            entry.edition += 1;
            entry.original = payload.len() as u16;
        }
        4 => {
            put_text(translation, payload);
            entry.from = command.edition;
            entry.translation = payload.len() as u16;
        }
        _ => {}
    }
    entry.pair.s = entry.pair.s.max(command.update.s);
    entry.pair.x = entry.pair.x.max(command.update.x);
    entry.mark = command.next;
    entry.write::<V>(&mut front[at..at + V::ENTRY], language);
    line(0, &entry, shown)
}

/// One command, with the image checked first.
pub fn answer<V: Version>(image: &mut [u8], command: &[u8], reply: &mut [u8]) -> Line {
    if V::is_sound(image, zeros) {
        step::<V>(image, command, reply)
    } else {
        refused(9)
    }
}

/// The whole commands of a stream in their order, as long as there is room for
/// their lines; the image is checked once. How many there were, and the byte
/// where it stopped.
pub fn run<V: Version>(
    image: &mut [u8],
    stream: &[u8],
    reply: &mut [u8],
    lines: &mut [Line],
) -> (usize, usize) {
    let sound = V::is_sound(image, zeros);
    let mut rest = stream;
    for (count, line) in lines.iter_mut().enumerate() {
        let whole = rest
            .get(50..V::FIXED)
            .and_then(|length| rest.split_at_checked(V::FIXED + u16_at(length, 0) as usize));
        let Some((command, more)) = whole else {
            return (count, stream.len() - rest.len());
        };
        *line = if sound {
            step::<V>(image, command, reply)
        } else {
            refused(9)
        };
        rest = more;
    }
    (lines.len(), stream.len() - rest.len())
}
