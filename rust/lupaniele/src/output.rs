use crate::raw;

/// How many bytes the longest output of the program has (rule 8.6).
///
/// ```
/// assert_eq!(lupaniele::OUTPUT_BYTES, 238_518);
/// ```
pub const OUTPUT_BYTES: usize = 238_518;

/// What the program prints for these bytes as its standard input (rules 8.3 to 8.6).
///
/// ```
/// use lupaniele::{Image, Version, output};
/// assert_eq!(output(b""), b"bad store\n");
/// let mut input = Image::make(Version::One, 1, 16)?.into_bytes();
/// input.extend([0; 52 + 5]); // a malformed command and five bytes
/// assert_eq!(output(&input), b"cards 1\n1 1 0 0 0 0 0 0 0\ncut 5\n");
/// # Ok::<(), lupaniele::Number>(())
/// ```
#[must_use]
pub fn output(input: &[u8]) -> Vec<u8> {
    let mut out = vec![0; OUTPUT_BYTES];
    let count = raw::output(input, &mut out);
    out.truncate(count as usize);
    out
}

/// The same in front of a lent buffer; nothing where it has fewer than [`OUTPUT_BYTES`] bytes.
///
/// ```
/// use lupaniele::{OUTPUT_BYTES, output_into};
/// let mut out = vec![0; OUTPUT_BYTES];
/// assert_eq!(output_into(b"", &mut out), Some(&b"bad store\n"[..]));
/// assert_eq!(output_into(b"", &mut out[1..]), None);
/// ```
#[must_use]
pub fn output_into<'a>(input: &[u8], out: &'a mut [u8]) -> Option<&'a [u8]> {
    match raw::output(input, out) {
        0 => None,
        count => out.get(..count as usize),
    }
}
