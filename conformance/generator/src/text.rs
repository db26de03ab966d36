//! Small pieces of text: names, escapes, characters, spaces.

use crate::random::Random;

pub(crate) const MARK: &[u8] = b"\xEF\xBB\xBF";

pub(crate) const MOST_OCTETS: usize = 512_000;
pub(crate) const MOST_NAME: usize = 64;
pub(crate) const MOST_PATH: usize = 2_048;
pub(crate) const MOST_INPUT: usize = 65_536;

const NAMES: [&[u8]; 8] = [
    b"a",
    b"b",
    b"Bot",
    b"foo-bot",
    b"FOO_BOT",
    b"ExampleBot",
    b"-_",
    b"crawler-with-a-long-name",
];

const ESCAPES: [&[u8]; 40] = [
    b"%41",
    b"%61",
    b"%62",
    b"%7A",
    b"%7a",
    b"%30",
    b"%2d",
    b"%2E",
    b"%5f",
    b"%7e",
    b"%7E",
    b"%2f",
    b"%2F",
    b"%2a",
    b"%2A",
    b"%24",
    b"%25",
    b"%3F",
    b"%3d",
    b"%00",
    b"%0a",
    b"%20",
    b"%23",
    b"%7f",
    b"%80",
    b"%Ff",
    b"%c3%a9",
    b"%E3%83%84",
    b"%",
    b"%4",
    b"%a",
    b"%zz",
    b"%g1",
    b"%1g",
    b"%%",
    b"%%41",
    b"%4%41",
    b"%2541",
    b"%25%",
    b"%-1",
];

const WELL_FORMED: [&[u8]; 13] = [
    b"\xC2\x80",
    b"\xC3\xA9",
    b"\xDF\xBF",
    b"\xE0\xA0\x80",
    b"\xE3\x83\x84",
    b"\xEC\xBF\xBF",
    b"\xED\x80\x80",
    b"\xED\x9F\xBF",
    b"\xEE\x80\x80",
    MARK,
    b"\xF0\x90\x80\x80",
    b"\xF3\xBF\xBF\xBF",
    b"\xF4\x8F\xBF\xBF",
];

/// Overlong, surrogate, too high, cut short, and tails alone.
const ILL_FORMED: [&[u8]; 20] = [
    b"\xC0\xAF",
    b"\xC1\xBF",
    b"\xE0\x80\x80",
    b"\xE0\x9F\xBF",
    b"\xF0\x80\x80\x80",
    b"\xF0\x8F\xBF\xBF",
    b"\xED\xA0\x80",
    b"\xED\xBF\xBF",
    b"\xF4\x90\x80\x80",
    b"\xF5\x80\x80\x80",
    b"\xC3",
    b"\xC3\x28",
    b"\xE3\x83",
    b"\xE3\x83\x28",
    b"\xF0\x9F\x98",
    b"\xF0\x9F\x98\x28",
    b"\x80",
    b"\xBF",
    b"\xFE",
    b"\xFF",
];

pub(crate) fn well_formed(random: &mut Random) -> &'static [u8] {
    random.pick(&WELL_FORMED)
}

pub(crate) fn ill_formed(random: &mut Random) -> &'static [u8] {
    random.pick(&ILL_FORMED)
}

/// An escape in one of its forms, or what looks like one.
pub(crate) fn escape(random: &mut Random) -> Vec<u8> {
    if random.one_in(3) {
        let octet = random.octet();
        return escape_of(random, octet);
    }
    random.pick(&ESCAPES).to_vec()
}

/// The escape of an octet, in any letter case.
pub(crate) fn escape_of(random: &mut Random, octet: u8) -> Vec<u8> {
    let upper = format!("%{octet:02X}").into_bytes();
    other_case(random, &upper)
}

/// The text with the case of its letters kept, changed or mixed.
pub(crate) fn other_case(random: &mut Random, text: &[u8]) -> Vec<u8> {
    match random.below(4) {
        0 => text.to_ascii_lowercase(),
        1 => text.to_ascii_uppercase(),
        2 => text.to_vec(),
        _ => text
            .iter()
            .map(|octet| {
                if random.one_in(2) {
                    octet.to_ascii_uppercase()
                } else {
                    octet.to_ascii_lowercase()
                }
            })
            .collect(),
    }
}

/// Spaces and tabs, often few.
pub(crate) fn spaces(random: &mut Random) -> &'static [u8] {
    random.pick(&[b"", b"", b"", b" ", b" ", b"\t", b"  ", b" \t", b"\t "])
}

/// Any octets at all.
pub(crate) fn any_octets(random: &mut Random, most: usize) -> Vec<u8> {
    let length = random.below(most + 1);
    (0..length).map(|_| random.octet()).collect()
}

/// A name that isn't refused.
pub(crate) fn good_name(random: &mut Random) -> Vec<u8> {
    match random.below(40) {
        0 => vec![b'x'; MOST_NAME],
        1 => vec![b'x'; MOST_NAME - 1],
        2 => vec![random.octet_of(b"abzABZ-_")],
        _ => {
            let name = random.pick(&NAMES);
            other_case(random, name)
        }
    }
}

/// A name, now and then one that is refused.
pub(crate) fn name(random: &mut Random) -> Vec<u8> {
    let mut name = good_name(random);
    if random.one_in(16) {
        match random.below(5) {
            0 => name.clear(),
            1 => name = vec![b'x'; MOST_NAME + 1],
            2 => name.push(random.octet_of(b" \t*/.:0\r\n#")),
            _ => {
                let at = random.below(name.len() + 1);
                name.insert(at, random.octet());
            }
        }
    }
    name
}
