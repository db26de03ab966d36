//! Values and paths for files of many short lines.

use crate::agents::{behind_name, unreadable_agent};
use crate::derived::{damage, stretches};
use crate::patterns::{mended, path as any_path, pattern, robots_path, theme};
use crate::random::Random;
use crate::text::{any_octets, escape, good_name, ill_formed, other_case, well_formed, MOST_PATH};

/// Most octets of a pattern.
const MOST_PATTERN: usize = 150;

/// A value of an agent line: mostly the name or "*", or one that is shorter or
/// longer by an octet.
pub(crate) fn agent(random: &mut Random, name: &[u8]) -> Vec<u8> {
    let own = other_case(random, name);
    match random.below(40) {
        0..=16 => own,
        17..=29 => b"*".to_vec(),
        30 => own[..own.len() - 1].to_vec(),
        31 => [own.as_slice(), &[random.octet_of(b"az-_AZ")]].concat(),
        32 => [own.as_slice(), &[random.octet_of(b"0129")]].concat(),
        33 => [own, behind_name(random)].concat(),
        34 => unreadable_agent(random, name),
        35 => good_name(random),
        36 => Vec::new(),
        37 => [&[random.octet()], own.as_slice()].concat(),
        38 => [own.as_slice(), &[random.octet()]].concat(),
        _ => any_octets(random, 9),
    }
}

/// A pattern that mostly matches the path, of 0 to 150 octets; now and then one
/// that was there before, or an unreadable one.
pub(crate) fn rule_value(random: &mut Random, path: &[u8], before: &[Vec<u8>]) -> Vec<u8> {
    let front = path[..random.below(path.len().min(MOST_PATTERN) + 1)].to_vec();
    let mut value = match (random.below(24), before.len()) {
        (0..=2, count @ 1..) => before[random.below(count)].clone(),
        (3..=6, _) => front,
        (7, _) => [front, b"$".to_vec()].concat(),
        (8..=9, _) => with_unusual(random, front),
        (10, _) => [front, unusual(random)].concat(),
        (11, _) => [path, b"$"].concat(),
        (12, _) => {
            let theme = theme(random);
            pattern(random, &theme)
        }
        (13, _) => Vec::new(),
        (14, _) => [b"*", front.as_slice()].concat(),
        (15, _) => [random.octet()].into_iter().chain(front).collect(),
        _ => stretches(random, path),
    };
    if random.one_in(8) {
        damage(random, &mut value);
    }
    value.truncate(MOST_PATTERN);
    value
}

/// One unusual octet or character at any place.
fn with_unusual(random: &mut Random, mut text: Vec<u8>) -> Vec<u8> {
    let at = random.below(text.len() + 1);
    let token = unusual(random);
    text.splice(at..at, token);
    text
}

fn unusual(random: &mut Random) -> Vec<u8> {
    match random.below(10) {
        0..=2 => escape(random),
        3..=4 => well_formed(random).to_vec(),
        5 => ill_formed(random).to_vec(),
        6 => vec![random.octet()],
        _ => vec![random.octet_of(b"&%$*\x7F!\"~?;@[`{\xC3")],
    }
}

/// A path that isn't refused, but for a few about as long as one may be.
pub(crate) fn path(random: &mut Random) -> Vec<u8> {
    let made = match random.below(100) {
        0..=34 => literal(random),
        35..=64 => {
            let text = literal(random);
            with_unusual(random, text)
        }
        65..=74 => of_escapes(random),
        75..=93 => {
            let theme = theme(random);
            any_path(random, &theme, &[])
        }
        94..=98 => robots_path(random),
        _ => return long(random),
    };
    let mut path = mended(random, made);
    path.truncate(MOST_PATH);
    path
}

/// A path of ordinary octets.
fn literal(random: &mut Random) -> Vec<u8> {
    let most = if random.one_in(2) { 40 } else { 300 };
    let length = random.below(most);
    let octets: &[u8] = random.pick(&[b"ab", b"abc/.", b"user-agent:/", b"abcdefxyz019-_~/"]);
    let rest = (0..length).map(|_| random.octet_of(octets));
    std::iter::once(b'/').chain(rest).collect()
}

/// A path full of escapes and of what looks like them.
fn of_escapes(random: &mut Random) -> Vec<u8> {
    let mut path = b"/".to_vec();
    for _ in 0..random.between(1, 60) {
        path.extend(escape(random));
    }
    path
}

/// A path of 2,047 to 2,049 octets.
fn long(random: &mut Random) -> Vec<u8> {
    let length = random.between(MOST_PATH - 1, MOST_PATH + 1);
    let block = match random.below(3) {
        0 => b"a".to_vec(),
        1 => escape(random),
        _ => literal(random),
    };
    let path = b"/".iter().chain(block.iter().cycle()).take(length);
    let path = path.copied().collect();
    mended(random, path)
}
