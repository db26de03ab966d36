//! Files of one unit again and again, and units of up to three octets, to find
//! a shape that is slow.

use crate::rows::{Pair, Row};
use crate::sites::LONGEST;

/// Octets of a file of one named unit, and of one of a small unit.
const NAMED: usize = 100_000;
const SMALL: usize = 6_000;

/// The octets that matter, and what ends a line.
const OCTETS: [u8; 14] = *b"uad \t#:/*\n\r\0x\xEF";
const ENDINGS: [&[u8]; 3] = [b"\n", b"\r", b"\r\n"];

const PATH: &str = "/archive/2024/news.html";

/// Each is repeated; the crawler is `x`.
const UNITS: [(&str, &[u8]); 31] = [
    ("u", b"u\n"),
    ("a", b"a\n"),
    ("d", b"d\n"),
    ("space and u", b" u\n"),
    ("LF and a space", b"\n "),
    ("three spaces and u", b"   u\n"),
    ("nine tabs and u", b"\t\t\t\t\t\t\t\t\tu\n"),
    ("user-agen", b"user-agen\n"),
    ("disallo", b"disallo\n"),
    ("allow without a colon", b"allow \n"),
    ("user-agents:", b"user-agents: x\n"),
    ("disallowed:", b"disallowed: /\n"),
    ("LF", b"\n"),
    ("CR", b"\r"),
    ("CR LF", b"\r\n"),
    ("NUL", b"\0\n"),
    ("nine NULs and u", b"\0\0\0\0\0\0\0\0\0u\n"),
    ("# u", b"# u\n"),
    (
        "comments of tabs behind rules",
        b"disallow: /a #\t\t\t\t\t\t\t\t\n",
    ),
    ("agents: the crawler", b"user-agent: x\n"),
    ("agents: another", b"user-agent: y\n"),
    ("groups: the crawler", b"user-agent: x\ndisallow: /y\n"),
    ("groups: another", b"user-agent: y\ndisallow: /y\n"),
    ("groups: everyone", b"user-agent: *\nallow: /*y\n"),
    ("groups: escapes", b"user-agent: x\nallow: /%61%2f%e9%7E\n"),
    (
        "groups: UTF-8",
        b"user-agent: x\nallow: /\xC3\xA9\xE3\x83\x84\n",
    ),
    ("rules of nobody", b"disallow: /archive\n"),
    ("unreadable rules", b"disallow: x\n"),
    ("user-agent:", b"user-agent:\n"),
    ("disallow:", b"disallow:\n"),
    ("allow:/", b"allow:/\n"),
];

/// Each fills one line of the longest file.
const LINES: [(&str, u8); 3] = [
    ("one line of NULs", 0),
    ("one line of tabs", b'\t'),
    ("one line of a", b'a'),
];

/// Makes what stands behind it part of a group that applies.
const AGENT: &[u8] = b"user-agent: *\n";

/// Units that are neither agent lines nor rules, behind `AGENT`.
const GROUPED: [(&str, &[u8]); 12] = [
    ("u, in a group", b"u\n"),
    ("a, in a group", b"a\n"),
    ("space and u, in a group", b" u\n"),
    ("LF and a space, in a group", b"\n "),
    ("two spaces, in a group", b"  \n"),
    ("three spaces and u, in a group", b"   u\n"),
    ("user-agen, in a group", b"user-agen\n"),
    ("disallowed:, in a group", b"disallowed: /\n"),
    ("CR, in a group", b"\r"),
    ("NUL, in a group", b"\0\n"),
    ("# u, in a group", b"# u\n"),
    ("other fields, in a group", b"crawl-delay: 1\n"),
];

pub fn named() -> Vec<Row> {
    let mut rows = Vec::from(UNITS.map(|(name, unit)| shape(name, repeated(unit, NAMED))));
    rows.extend(GROUPED.map(|(name, unit)| shape(name, grouped(unit, NAMED))));
    rows.push(shape("groups: a name each", many_names()));
    rows.extend(LINES.map(|(name, octet)| shape(name, vec![octet; LONGEST])));
    rows
}

/// Each unit of one to three of the octets with each ending; then the same,
/// each in a group that applies.
pub fn small() -> impl Iterator<Item = Row> {
    small_by(repeated).chain(small_by(grouped))
}

fn small_by(file: fn(&[u8], usize) -> Vec<u8>) -> impl Iterator<Item = Row> {
    units().flat_map(move |unit| {
        ENDINGS.map(|ending| {
            let unit = [unit.as_slice(), ending].concat();
            let name = format!("\"{}\"", unit.escape_ascii());
            shape(name, file(&unit, SMALL))
        })
    })
}

fn shape(name: impl Into<String>, file: Vec<u8>) -> Row {
    Row::deciding(name, file, question())
}

fn question() -> Vec<Pair> {
    vec![(b"x".to_vec(), PATH.into())]
}

/// A thousand groups, of crawlers `a-aaa` to `a-jjj`.
fn many_names() -> Vec<u8> {
    let letter = |digit: usize| char::from(b'a' + (digit % 10) as u8);
    let group = |at: usize| {
        let name = [at / 100, at / 10, at].map(letter);
        let name = String::from_iter(name);
        format!(
            "User-agent: a-{name}\nDisallow: /{name}\nDisallow: /archive/{name}\nAllow: /tag\n\n"
        )
    };
    (0..1_000).map(group).collect::<String>().into_bytes()
}

fn grouped(unit: &[u8], octets: usize) -> Vec<u8> {
    let lines = unit.iter().cycle();
    AGENT.iter().chain(lines).take(octets).copied().collect()
}

fn repeated(unit: &[u8], octets: usize) -> Vec<u8> {
    unit.iter().cycle().take(octets).copied().collect()
}

fn units() -> impl Iterator<Item = Vec<u8>> {
    (1..=3_u32).flat_map(|length| {
        let count = OCTETS.len().pow(length);
        (0..count).map(move |number| unit(number, length))
    })
}

/// The unit of this number, its digits being the octets.
fn unit(mut number: usize, length: u32) -> Vec<u8> {
    let mut octets = Vec::new();
    for _ in 0..length {
        octets.push(OCTETS[number % OCTETS.len()]);
        number /= OCTETS.len();
    }
    octets
}
