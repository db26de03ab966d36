//! Questions for the dialect of 1996: paths with stars, dollars and escapes, and
//! files whose patterns are mostly beginnings of the path.

use crate::derived::damage;
use crate::derived_files::{agent, between, joined, refused_name, refused_path};
use crate::files::field_line;
use crate::patterns::{mended, path, robots_path, theme};
use crate::random::Random;
use crate::text::{escape, escape_of, good_name, ill_formed, well_formed};
use crate::DecideCase;

/// A path, and a file of groups, several of which often apply. About two thirds
/// of these questions are decided by a rule. Now and then name and path are
/// refused, or one of them.
pub(crate) fn draft_decide_case(random: &mut Random) -> DecideCase {
    let name = good_name(random);
    let path = draft_path(random);
    let file = file(random, &name, &path);
    let mut case = DecideCase { file, name, path };
    if random.percent(3) {
        case.name = refused_name(random);
    }
    if random.percent(5) {
        case.path = refused_path(random, b"/a*");
    }
    case
}

fn draft_path(random: &mut Random) -> Vec<u8> {
    let raw = match random.below(20) {
        0 => robots_path(random),
        1 => {
            let theme = theme(random);
            path(random, &theme, &[])
        }
        _ => {
            let tokens = random.below(12);
            let tail = (0..tokens).flat_map(|_| token(random));
            [b'/'].into_iter().chain(tail).collect()
        }
    };
    mended(random, raw)
}

/// A few octets of a path or a pattern; many of them normalising changes.
fn token(random: &mut Random) -> Vec<u8> {
    let special: &[u8] = random.pick(&[b"*", b"$", b"%2A", b"%2a", b"%24", b"%2f", b"%7e", b"~"]);
    match random.below(20) {
        0..=7 => vec![random.octet_of(b"aab/.?")],
        8..=15 => special.to_vec(),
        16 | 17 => escape(random),
        18 => b"%".to_vec(),
        _ => well_formed(random).to_vec(),
    }
}

fn file(random: &mut Random, name: &[u8], path: &[u8]) -> Vec<u8> {
    let mut lines = Vec::new();
    let mut patterns = Vec::new();
    let groups = random.between(1, 5);
    for group in 0..groups {
        // so that a later group often decides
        let misses = group + 1 < groups && random.percent(45);
        for _ in 0..random.between(1, 3) {
            let agent = agent(random, name);
            lines.push(field_line(random, b"user-agent", &agent));
            lines.extend(between(random));
        }
        for _ in 0..random.below(5) {
            let pattern = match misses {
                true => miss(random, path),
                false => rule_value(random, path, &patterns),
            };
            let side: &[u8] = random.pick(&[b"allow", b"disallow"]);
            lines.push(field_line(random, side, &pattern));
            patterns.push(pattern);
            lines.extend(between(random));
        }
    }
    joined(random, lines)
}

/// A pattern that mostly matches: a beginning of the path spelt in some way, or
/// one before again.
fn rule_value(random: &mut Random, path: &[u8], before: &[Vec<u8>]) -> Vec<u8> {
    match (random.below(20), before.len()) {
        (0..=3, _) => miss(random, path),
        (4..=6, count @ 1..) => before[random.below(count)].clone(),
        (7, _) => b"/".to_vec(),
        _ => beginning(random, path),
    }
}

/// A pattern that mostly doesn't match in this dialect; many would in the
/// RFC's.
fn miss(random: &mut Random, path: &[u8]) -> Vec<u8> {
    let front = beginning(random, path);
    match random.below(16) {
        0 => Vec::new(),
        1 => [
            random.pick(&[b"x".as_slice(), b"$", b"%2F", b"*\x80"]),
            path,
        ]
        .concat(),
        2 => [front.as_slice(), ill_formed(random)].concat(),
        3 => b"/*".to_vec(),
        4 => [b"*", path].concat(),
        5 => [b"*".as_slice(), &[random.octet_of(b"x/a*$")]].concat(),
        6 => [b"*", &path[path.len() / 2..]].concat(),
        7 | 8 => [front.as_slice(), b"*"].concat(),
        9 | 10 => [front.as_slice(), b"$"].concat(),
        11 => [spelt(random, path), b"$".to_vec()].concat(),
        12 => [spelt(random, path), token(random)].concat(),
        _ => {
            let mut pattern = front;
            damage(random, &mut pattern);
            pattern
        }
    }
}

/// A beginning of the path, cut mostly between two octets of the normalised
/// one, and spelt in some way.
fn beginning(random: &mut Random, path: &[u8]) -> Vec<u8> {
    let mut end = random.between(path.len().min(1), path.len());
    if random.percent(95) {
        for escape in 1..=2 {
            if end >= escape && path[end - escape] == b'%' {
                end -= escape;
                break;
            }
        }
    }
    spelt(random, &path[..end.max(path.len().min(1))])
}

/// The text as a pattern of this dialect writes it: stars, dollars and letters
/// as they are or as escapes, and escapes in either case or as what they mean.
fn spelt(random: &mut Random, text: &[u8]) -> Vec<u8> {
    let mut spelt = Vec::new();
    let mut rest = text;
    while let [first, after @ ..] = rest {
        let meant = meant(rest);
        let octet = meant.unwrap_or(*first);
        rest = if meant.is_some() { &after[2..] } else { after };
        let either = octet.is_ascii_alphanumeric() || b"-._~*$".contains(&octet);
        let may_escape = either || octet >= 0x7F;
        let escaped = match meant {
            Some(_) => !either || random.one_in(2),
            None if octet >= 0x80 => random.percent(85),
            None => may_escape && random.one_in(6),
        };
        if escaped {
            spelt.extend(escape_of(random, octet));
        } else {
            spelt.push(octet);
        }
    }
    spelt
}

/// The octet that "%" and two hex digits at the front mean.
fn meant(text: &[u8]) -> Option<u8> {
    let [b'%', digits @ ..] = text else {
        return None;
    };
    let digits = digits.get(..2)?;
    if !digits.iter().all(u8::is_ascii_hexdigit) {
        return None;
    }
    let digits = std::str::from_utf8(digits).ok()?;
    u8::from_str_radix(digits, 16).ok()
}
