//! Every small pattern against every small path.

use crate::ask::check_match;
use generator::{after_slash, after_slash_or_star, strings};

/// Checks each pattern with each path. Gives the number of pairs, and of
/// those that are answered and of those that match.
fn check_all(patterns: &[Vec<u8>], paths: &[Vec<u8>]) -> (usize, usize, usize) {
    let (mut answered, mut matches) = (0, 0);
    for path in paths {
        for pattern in patterns {
            let answer = check_match(pattern, path);
            answered += usize::from(answer.refusal == 0);
            matches += usize::from(answer.found);
        }
    }
    (patterns.len() * paths.len(), answered, matches)
}

/// Up to six octets, with "/" and up to four.
#[test]
fn letters_stars_and_dollars() {
    let (pairs, answered, matches) = check_all(&strings(b"/ab*$", 6), &after_slash(b"/ab", 4));
    // 5^0 + .. + 5^6 patterns, 3^0 + .. + 3^4 paths; of the patterns
    // 5^0 + .. + 5^5 begin with "/" and as many with a star
    assert_eq!(pairs, 19_531 * 121);
    assert_eq!(answered, 2 * 3_906 * 121);
    assert!(matches > 20_000, "{matches} matches");
}

/// One letter only, so that runs stand often and too soon: "/" or a star and up
/// to eight octets, with "/" and up to nine.
#[test]
fn one_letter_and_stars() {
    let mut patterns = after_slash_or_star(b"a*", 8);
    patterns.extend(
        after_slash_or_star(b"a*", 7)
            .iter()
            .map(|p| [p, b"$".as_slice()].concat()),
    );
    let (pairs, answered, matches) = check_all(&patterns, &after_slash(b"a", 9));
    // 2^0 + .. + 2^8 patterns, and 2^0 + .. + 2^7 with an end mark, behind each
    assert_eq!(pairs, 2 * (511 + 255) * 10);
    assert_eq!(answered, pairs);
    assert!(matches > 1_000, "{matches} matches");
}

/// Patterns that begin otherwise and are empty, and paths that do and are.
#[test]
fn any_beginning() {
    let patterns = strings(b"/a*$", 4);
    let paths = strings(b"/a*", 4);
    let (pairs, answered, _) = check_all(&patterns, &paths);
    // 4^0 + .. + 4^4 and 3^0 + .. + 3^4; of those 4^0 + .. + 4^3 and
    // 3^0 + .. + 3^3 begin with "/", and as many patterns with a star
    assert_eq!(pairs, 341 * 121);
    assert_eq!(answered, 2 * 85 * 40);
}

/// Pieces of escapes, put together in every way.
#[test]
fn digits_and_percent_signs() {
    let patterns = after_slash_or_star(b"%41*$", 4);
    let paths = after_slash(b"%41", 5);
    let (pairs, answered, matches) = check_all(&patterns, &paths);
    // 5^0 + .. + 5^4 patterns behind each, 3^0 + .. + 3^5 paths
    assert_eq!(pairs, 2 * 781 * 364);
    assert_eq!(answered, pairs);
    assert!(matches > 10_000, "{matches} matches");
}
