//! The limits, octets beside those of UTF-8, names, long texts, and texts inside
//! larger memory.

pub const MOST_FILE: usize = 512_000;
pub const MOST_NAME: usize = 64;
pub const MOST_LINE: usize = 512_000;
pub const MOST_PATTERN: usize = 512_000;
pub const MOST_PATH: usize = 2_048;
pub const MOST_NORMALISED: usize = 6_142;

/// Octets on both sides of each limit of a tail in UTF-8.
pub const TAILS: [u8; 10] = [0x21, 0x7F, 0x80, 0x8F, 0x90, 0x9F, 0xA0, 0xBF, 0xC0, 0xFF];

/// An octet of a name: "A-Z a-z - _".
pub fn is_name_octet(octet: u8) -> bool {
    octet.is_ascii_alphabetic() || octet == b'-' || octet == b'_'
}

/// "The value's name is now its longest beginning of A-Z a-z - _" (M-105)
pub fn name_of(value: &[u8]) -> &[u8] {
    let end = value.iter().position(|octet| !is_name_octet(*octet));
    &value[..end.unwrap_or(value.len())]
}

/// The beginning, then the block again and again, then the end: exactly
/// `length` octets.
pub fn lengthened(beginning: &[u8], block: &[u8], end: &[u8], length: usize) -> Vec<u8> {
    let middle = length - beginning.len() - end.len();
    let blocks = block.iter().cycle().take(middle).copied();
    let text: Vec<u8> = beginning.iter().copied().chain(blocks).collect();
    [text.as_slice(), end].concat()
}

/// "/" and then one octet again and again.
pub fn slash_and(octet: u8, length: usize) -> Vec<u8> {
    lengthened(b"/", &[octet], b"", length)
}

/// The text inside larger memory, behind `start` octets.
pub fn surrounded(text: &str, before: &str, after: &str, start: usize) -> Vec<u8> {
    let front = "a".repeat(start - before.len());
    format!("{front}{before}{text}{after}").into_bytes()
}
