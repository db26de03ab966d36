//! Texts of the data files as octets.

use std::ops::Range;

/// The octets of a text, with `\t`, `\r`, `\\` and `\xHH` resolved.
pub fn unescape(text: &str) -> Result<Vec<u8>, String> {
    let mut octets = Vec::new();
    let mut rest = text.as_bytes();
    while let Some((&first, after)) = rest.split_first() {
        rest = after;
        if first == b'\\' {
            let (octet, used) = escape(rest)?;
            octets.push(octet);
            rest = &rest[used..];
        } else {
            octets.push(first);
        }
    }
    Ok(octets)
}

/// The octet meant after a backslash, and how many octets tell it.
fn escape(rest: &[u8]) -> Result<(u8, usize), String> {
    match rest {
        [b't', ..] => Ok((b'\t', 1)),
        [b'r', ..] => Ok((b'\r', 1)),
        [b'\\', ..] => Ok((b'\\', 1)),
        [b'x', high, low, ..] => match (hex(*high), hex(*low)) {
            (Some(high), Some(low)) => Ok((high * 16 + low, 3)),
            _ => Err("\\x without two hex digits".to_string()),
        },
        _ => Err("a backslash that means nothing".to_string()),
    }
}

fn hex(octet: u8) -> Option<u8> {
    let digit = char::from(octet).to_digit(16)?;
    u8::try_from(digit).ok()
}

/// The place in the file of a rule's pattern: line `number` (from 1), after
/// the first colon.
pub fn pattern_place(file: &[u8], number: usize, pattern: &[u8]) -> Result<usize, String> {
    let line = line_range(file, number).ok_or("the rules file has no such line")?;
    let text = &file[line.clone()];
    let colon = text.iter().position(|&b| b == b':');
    let after = colon.ok_or("the deciding line has no colon")? + 1;
    let within = text[after..]
        .windows(pattern.len().max(1))
        .position(|window| window == pattern);
    let offset = within.ok_or("the deciding line lacks the pattern")?;
    Ok(line.start + after + offset)
}

/// Where line `number` (from 1) stands, without its ending.
fn line_range(file: &[u8], number: usize) -> Option<Range<usize>> {
    let mut start = 0;
    for _ in 1..number {
        start = next_line(file, line_end(file, start))?;
    }
    (number > 0 && start < file.len()).then(|| start..line_end(file, start))
}

fn line_end(file: &[u8], start: usize) -> usize {
    let ending = |&b: &u8| b == b'\r' || b == b'\n';
    let length = file[start..].iter().position(ending);
    length.map_or(file.len(), |length| start + length)
}

/// The start of the line after the ending at `end`: CR LF, CR or LF.
fn next_line(file: &[u8], end: usize) -> Option<usize> {
    match &file[end..] {
        [] => None,
        [b'\r', b'\n', ..] => Some(end + 2),
        _ => Some(end + 1),
    }
}
