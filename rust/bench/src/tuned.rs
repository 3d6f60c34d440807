//! A tuned version in safe Rust: the same rules by one who has looked at the
//! machine code. Numbers are read as wide words, each act has its own copy of
//! the judging code, of an entry only what changes is written, and a text
//! clears only what the old one covered.

use crate::plain::{u16_at, u64_at, zeros_at_once, Line, Version, HEADER, MOST_AHEAD};

#[inline(always)]
fn put_u16(bytes: &mut [u8], at: usize, value: u16) {
    bytes[at..at + 2].copy_from_slice(&value.to_le_bytes());
}

#[inline(always)]
fn put_u64(bytes: &mut [u8], at: usize, value: u64) {
    bytes[at..at + 8].copy_from_slice(&value.to_le_bytes());
}

/// A stamp is zero, or names a desk.
#[inline(always)]
fn is_valid(stamp: u64) -> bool {
    stamp == 0 || stamp & 0xffff_0000 != 0
}

/// The mark in a command's six bytes: the desk low, the transaction high.
#[inline(always)]
fn mark_at(bytes: &[u8], at: usize) -> u64 {
    u64_at(bytes, at) & 0xffff_ffff_ffff
}

/// Both numbers of such a mark are zero, or neither is.
#[inline(always)]
fn is_whole(mark: u64) -> bool {
    (mark & 0xffff == 0) == (mark >> 16 == 0)
}

#[inline(always)]
fn zeros(bytes: &[u8]) -> bool {
    bytes.is_empty() || zeros_at_once(bytes)
}

/// How many cards an image has and their room, if its header and its length
/// are a version's.
#[inline(always)]
fn shape<V: Version>(image: &[u8]) -> Option<(usize, usize)> {
    let header = image.first_chunk::<HEADER>()?;
    let version = if V::TRANSLATIONS == 1 { 1 } else { 2 };
    if u64_at(header, 0) & 0xffff_ffff_ffff != 0x0031_4352 | version << 32
        || u64_at(header, 8) >> 16 != 0
    {
        return None;
    }
    let (cards, room) = (u16_at(header, 6) as usize, u16_at(header, 8) as usize);
    let size = HEADER + (V::ENTRY + (V::TRANSLATIONS + 1) * room) * cards;
    let fits = (1..=128).contains(&cards)
        && (16..=1024).contains(&room)
        && room.is_multiple_of(16)
        && size <= 65_536
        && size == image.len();
    fits.then_some((cards, room))
}

/// Whether bytes are a sound image.
pub fn is_sound<V: Version>(image: &[u8]) -> bool {
    let Some((cards, room)) = shape::<V>(image) else {
        return false;
    };
    let bodies = V::TRANSLATIONS + 1;
    let (front, texts) = image.split_at(HEADER + V::ENTRY * cards);
    let entries = front[HEADER..].chunks_exact(V::ENTRY);
    entries
        .zip(texts.chunks_exact(bodies * room))
        .all(|(entry, body)| {
            let mark = u64_at(entry, 16);
            let edition = u16_at(entry, 24);
            let original = u16_at(entry, V::ORIGINAL) as usize;
            let good = is_valid(u64_at(entry, 0))
                && is_valid(u64_at(entry, 8))
                && mark & 0xffff_0000 == 0
                && (mark as u16 == 0) == (mark >> 32 == 0)
                && original <= room
                && (edition != 0 || original == 0)
                && zeros(&entry[V::LENGTHS + 2 * V::TRANSLATIONS..V::ENTRY]);
            if !good || !zeros(&body[original..room]) {
                return false;
            }
            (0..V::TRANSLATIONS).all(|t| {
                let from = u16_at(entry, V::FROMS + 2 * t);
                let length = u16_at(entry, V::LENGTHS + 2 * t) as usize;
                length <= room
                    && from <= edition
                    && (from != 0 || length == 0)
                    && zeros(&body[(t + 1) * room..][..room][length..])
            })
        })
}

/// What a run keeps beside the command at hand.
struct Store<'a> {
    entries: &'a mut [u8],
    texts: &'a mut [u8],
    room: usize,
    reply: &'a mut [u8],
}

#[inline(always)]
fn blank(line: &mut Line, number: u64) {
    *line = [number, 0, 0, 0, 0, 0, 0, 0];
}

#[inline(always)]
fn put_text(body: &mut [u8], old: usize, text: &[u8]) {
    body[..text.len()].copy_from_slice(text);
    if text.len() < old {
        body[text.len()..old].fill(0);
    }
}

/// One command whose act is known when this is compiled.
#[inline(always)]
fn step<V: Version, const ACT: u8>(
    store: &mut Store,
    fixed: &[u8],
    payload: &[u8],
    line: &mut Line,
) {
    let writes = ACT == 3 || ACT == 4;
    let translated = ACT == 2 || ACT == 4;
    let mode = fixed[1];
    let named = u16_at(fixed, 48);
    let good = match ACT {
        3 => named == 0 && mode == 2,
        4 => named != 0 && mode == 2,
        _ => named == 0 && payload.is_empty() && (mode == 1 || mode == 2),
    };
    if !good {
        return blank(line, 1);
    }
    let mut language = 0;
    if V::TRANSLATIONS > 1 {
        // the language, and fifteen zeros behind it
        let first = u64_at(fixed, 20);
        language = (first & 0xff) as usize;
        let most = if translated { V::TRANSLATIONS - 1 } else { 0 };
        if first >> 8 | u64_at(fixed, 28) != 0 || language > most {
            return blank(line, 1);
        }
    }
    let (s, x) = (u64_at(fixed, 4), u64_at(fixed, 12));
    let (mut new_s, mut new_x) = (u64_at(fixed, V::UPDATE), u64_at(fixed, V::UPDATE + 8));
    if new_s | new_x == 0 {
        (new_s, new_x) = (s, x);
    } else if !(is_valid(new_s) && is_valid(new_x) && s <= new_s && x <= new_x) {
        return blank(line, 1);
    }
    let own = if writes || mode == 2 { new_x } else { new_s };
    if own == 0 || !is_valid(s) || !is_valid(x) {
        return blank(line, 1);
    }
    // mostly there are no marks: twelve zero bytes
    let (expected, next) = (mark_at(fixed, 36), mark_at(fixed, 42));
    if expected | next != 0 && !(is_whole(expected) && is_whole(next)) {
        return blank(line, 1);
    }
    let card = u16_at(fixed, 2) as usize;
    let found = store.entries.get_mut(V::ENTRY * card..);
    let Some(entry) = found.and_then(|entries| entries.get_mut(..V::ENTRY)) else {
        return blank(line, 2);
    };
    let (old_s, old_x) = (u64_at(entry, 0), u64_at(entry, 8));
    let mark = u64_at(entry, 16);
    let edition = u16_at(entry, 24);
    let from_at = V::FROMS + 2 * language;
    let from = u16_at(entry, from_at);
    let length_at = match translated {
        true => V::LENGTHS + 2 * language,
        false => V::ORIGINAL,
    };
    let refused = |line: &mut Line, number| {
        let (desk, transaction) = (mark & 0xffff, mark >> 32);
        *line = [
            number,
            old_s,
            old_x,
            desk,
            transaction,
            edition.into(),
            from.into(),
            0,
        ];
    };
    if x < old_x || (writes || mode == 2) && s < old_s {
        return refused(line, 3);
    }
    if new_s >> 32 > (old_s >> 32) + MOST_AHEAD || new_x >> 32 > (old_x >> 32) + MOST_AHEAD {
        return refused(line, 17);
    }
    if expected as u16 != mark as u16 || expected >> 16 < mark >> 32 {
        return refused(line, 4);
    }
    if writes && payload.len() > store.room {
        return refused(line, 5);
    }
    if ACT == 2 && (from == 0 || from != edition) || ACT == 4 && named != edition {
        return refused(line, 6);
    }
    if ACT == 3 && edition == u16::MAX {
        return refused(line, 7);
    }
    if (ACT == 1 || ACT == 2) && u16_at(entry, length_at) as usize > store.reply.len() {
        return refused(line, 8);
    }
    let mut shown = 0;
    if ACT != 5 {
        let side = if translated { 1 + language } else { 0 };
        let place = ((V::TRANSLATIONS + 1) * card + side) * store.room;
        let body = &mut store.texts[place..][..store.room];
        let old = u16_at(entry, length_at);
        if writes {
            put_text(body, old.into(), payload);
            put_u16(entry, length_at, payload.len() as u16);
            if ACT == 3 {
                put_u16(entry, 24, edition + 1);
            } else {
                put_u16(entry, from_at, edition);
            }
        } else {
            shown = old;
            store.reply[..old as usize].copy_from_slice(&body[..old as usize]);
        }
    }
    let (s, x) = (old_s.max(new_s), old_x.max(new_x));
    put_u64(entry, 0, s);
    put_u64(entry, 8, x);
    let (desk, transaction) = (next & 0xffff, next >> 16);
    put_u64(entry, 16, desk | transaction << 32);
    let edition = if ACT == 3 { edition + 1 } else { edition };
    let from = if ACT == 4 { edition } else { from };
    *line = [
        0,
        s,
        x,
        desk,
        transaction,
        edition.into(),
        from.into(),
        shown.into(),
    ];
}

/// The whole commands of a stream in their order, as long as there is room for
/// their lines; the image is checked once. How many there were, and the byte
/// where it stopped.
pub fn run<V: Version>(
    image: &mut [u8],
    stream: &[u8],
    reply: &mut [u8],
    lines: &mut [Line],
) -> (usize, usize) {
    let sound = is_sound::<V>(image);
    let (cards, room) = match sound {
        true => (u16_at(image, 6) as usize, u16_at(image, 8) as usize),
        false => (0, 0),
    };
    let first = HEADER.min(image.len());
    let (entries, texts) = image[first..].split_at_mut(V::ENTRY * cards);
    let mut store = Store {
        entries,
        texts,
        room,
        reply,
    };
    let mut rest = stream;
    let mut count = 0;
    for line in lines.iter_mut() {
        let Some((command, behind)) = rest.split_at_checked(V::FIXED) else {
            break;
        };
        let Some((payload, more)) = behind.split_at_checked(u16_at(command, 50).into()) else {
            break;
        };
        match command[0] {
            _ if !sound => blank(line, 9),
            1 => step::<V, 1>(&mut store, command, payload, line),
            2 => step::<V, 2>(&mut store, command, payload, line),
            3 => step::<V, 3>(&mut store, command, payload, line),
            4 => step::<V, 4>(&mut store, command, payload, line),
            5 => step::<V, 5>(&mut store, command, payload, line),
            _ => blank(line, 1),
        }
        rest = more;
        count += 1;
    }
    (count, stream.len() - rest.len())
}

/// One command, with the image checked first.
pub fn answer<V: Version>(image: &mut [u8], command: &[u8], reply: &mut [u8]) -> Line {
    let mut lines = [[0; 8]];
    let whole =
        command.len() >= V::FIXED && command.len() == V::FIXED + u16_at(command, 50) as usize;
    if whole {
        run::<V>(image, command, reply, &mut lines);
    } else {
        blank(&mut lines[0], if is_sound::<V>(image) { 1 } else { 9 });
    }
    lines[0]
}
