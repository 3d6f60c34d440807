//! Little-endian numbers in bytes, for reading what stands there: zero where the bytes end first; and parts put there.

fn part<const N: usize>(bytes: &[u8], at: usize) -> [u8; N] {
    let part = at.checked_add(N).and_then(|end| bytes.get(at..end));
    part.and_then(|part| part.try_into().ok()).unwrap_or([0; N])
}

pub(crate) fn u8_at(bytes: &[u8], at: usize) -> u8 {
    bytes.get(at).copied().unwrap_or(0)
}

pub(crate) fn u16_at(bytes: &[u8], at: usize) -> u16 {
    u16::from_le_bytes(part(bytes, at))
}

pub(crate) fn u32_at(bytes: &[u8], at: usize) -> u32 {
    u32::from_le_bytes(part(bytes, at))
}

pub(crate) fn u64_at(bytes: &[u8], at: usize) -> u64 {
    u64::from_le_bytes(part(bytes, at))
}

/// The bytes from `at` on, as many as `length`; none where they end first.
pub(crate) fn slice_at(bytes: &[u8], at: usize, length: usize) -> &[u8] {
    let part = at.checked_add(length).and_then(|end| bytes.get(at..end));
    part.unwrap_or(&[])
}

/// Puts bytes at a place, as far as there is room.
pub(crate) fn put(bytes: &mut [u8], at: usize, part: &[u8]) {
    let room = bytes.get_mut(at..).unwrap_or_default();
    room.iter_mut().zip(part).for_each(|(to, byte)| *to = *byte);
}
