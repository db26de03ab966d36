//! Patterns that are made from the path.

use crate::patterns::{path, stars, theme};
use crate::random::Random;
use crate::text::escape_of;
use crate::MatchCase;

/// A path, and a pattern of stretches of it with stars between them. Without
/// damage it mostly matches.
pub(crate) fn derived_case(random: &mut Random) -> MatchCase {
    let theme = theme(random);
    let path = path(random, &theme, &[]);
    let mut pattern = stretches(random, &path);
    if random.percent(70) {
        damage(random, &mut pattern);
    }
    MatchCase { pattern, path }
}

/// Stretches of the path with stars between them. The first is its beginning,
/// or has a star in front. Where the last one reaches the path's end there
/// often is an end mark.
pub(crate) fn stretches(random: &mut Random, path: &[u8]) -> Vec<u8> {
    let cuts = match random.below(8) {
        0 => 0,
        1 => random.between(8, 14),
        _ => random.between(1, 4),
    };
    let mut pattern = Vec::new();
    let mut at = 0;
    if random.percent(22) {
        pattern.extend(stars(random));
        at = skipped(random, path, at);
    }
    let least = usize::from(pattern.is_empty());
    for cut in 0..=cuts {
        let is_last = cut == cuts;
        let most = if random.one_in(6) { 24 } else { 4 };
        let length = match random.below(5) {
            0 if is_last => path.len(),
            _ => random.between(if cut == 0 { least } else { 0 }, most),
        };
        let end = path.len().min(at + length);
        for octet in &path[at..end] {
            pattern.extend(spelt(random, *octet));
        }
        at = end;
        if !is_last {
            pattern.extend(stars(random));
            at = skipped(random, path, at);
        }
    }
    if random.one_in(if at == path.len() { 2 } else { 12 }) {
        pattern.push(b'$');
    }
    pattern
}

/// Where a star that begins at this place of the path ends.
fn skipped(random: &mut Random, path: &[u8], at: usize) -> usize {
    at + random.below(path.len() - at + 1).min(random.below(9))
}

/// An octet of the path as a pattern writes it.
fn spelt(random: &mut Random, octet: u8) -> Vec<u8> {
    let changes = matches!(octet, b'*' | b'$' | 0x7F..);
    if changes || (octet.is_ascii_alphabetic() && random.one_in(12)) {
        escape_of(random, octet)
    } else {
        vec![octet]
    }
}

/// Changes, takes away or adds an octet behind the first one, or swaps two
/// neighbours there.
pub(crate) fn damage(random: &mut Random, pattern: &mut Vec<u8>) {
    let length = pattern.len();
    let octet = random.octet_of(b"abbc/.%$?");
    match random.below(6) {
        0 | 1 if length > 1 => pattern[random.between(1, length - 1)] = octet,
        2 if length > 1 => {
            pattern.remove(random.between(1, length - 1));
        }
        3 if length > 2 => {
            let at = random.between(2, length - 1);
            pattern.swap(at - 1, at);
        }
        _ => {
            let at = random.between(length.min(1), length);
            pattern.insert(at, octet);
        }
    }
}
