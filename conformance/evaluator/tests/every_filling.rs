//! Matching compared with fillings that are really tried out, one by one.

use evaluator::match_pattern;
use generator::{after_slash, after_slash_or_star, strings};

/// The normalised form of a pattern over "/", letters, "*" and "$": its parts
/// between the stars, and whether there is an end mark.
fn parts(pattern: &[u8]) -> (Vec<Vec<u8>>, bool) {
    let text = String::from_utf8(pattern.to_vec()).unwrap();
    let (text, end_mark) = match text.strip_suffix('$') {
        Some(before) => (before, true),
        None => (text.as_str(), false),
    };
    let parts = text
        .replace('$', "%24")
        .split('*')
        .map(|part| part.as_bytes().to_vec())
        .collect();
    (parts, end_mark)
}

/// "some filling of its stars gives a beginning of the path, or all of it
/// where there is an end mark": every star is filled with every filling, but
/// what is no beginning of the path isn't lengthened.
fn some_filling(pattern: &[u8], path: &[u8], fillings: &[Vec<u8>]) -> bool {
    let (parts, end_mark) = parts(pattern);
    let filled = parts[0].clone();
    try_fillings(filled, &parts[1..], end_mark, path, fillings)
}

fn try_fillings(
    filled: Vec<u8>,
    parts: &[Vec<u8>],
    end_mark: bool,
    path: &[u8],
    fillings: &[Vec<u8>],
) -> bool {
    if !path.starts_with(&filled) {
        return false;
    }
    let Some((part, later)) = parts.split_first() else {
        return !end_mark || filled == path;
    };
    fillings.iter().any(|filling| {
        let longer = [filled.as_slice(), filling, part].concat();
        try_fillings(longer, later, end_mark, path, fillings)
    })
}

/// Every pattern of up to four octets with every path of up to four, filled
/// with every string of up to four octets: a star at the beginning may stand
/// for the whole path.
#[test]
fn every_small_pattern_with_every_string() {
    let fillings = strings(b"/ab", 4);
    let paths = after_slash(b"/ab", 3);
    let mut yes = 0;
    let mut no = 0;
    for pattern in after_slash_or_star(b"/ab*$", 3) {
        for path in &paths {
            let answer = match_pattern(&pattern, path);
            let expected = some_filling(&pattern, path, &fillings);
            assert_eq!(answer.refusal, 0);
            assert_eq!(answer.found, expected, "{pattern:?} {path:?}");
            if expected {
                yes += 1;
            } else {
                no += 1;
            }
        }
    }
    assert!(yes > 500 && no > 500, "{yes} {no}");
}

/// All stretches of the path. A filling that is none of them gives no
/// beginning of the path.
fn stretches(path: &[u8]) -> Vec<Vec<u8>> {
    let mut all = vec![Vec::new()];
    for start in 0..path.len() {
        for end in start + 1..=path.len() {
            all.push(path[start..end].to_vec());
        }
    }
    all.sort();
    all.dedup();
    all
}

/// Every pattern of up to six octets over fewer letters, filled with every
/// stretch of the path.
#[test]
fn every_pattern_of_six_with_every_stretch() {
    let stars = |pattern: &[u8]| pattern.iter().filter(|octet| **octet == b'*').count();
    let mut patterns = after_slash_or_star(b"ab*$", 5);
    patterns.retain(|pattern| stars(pattern) <= 4);
    for path in after_slash(b"ab", 4) {
        let fillings = stretches(&path);
        for pattern in &patterns {
            let answer = match_pattern(pattern, &path);
            let expected = some_filling(pattern, &path, &fillings);
            assert_eq!(answer.found, expected, "{pattern:?} {path:?}");
        }
    }
}
