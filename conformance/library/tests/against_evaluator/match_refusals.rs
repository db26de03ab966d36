//! Every refusal of a match, alone and with each of the others. "Each entry
//! tests the conditions that concern it, the smallest number first".

use crate::ask::{check_refused_match, check_walk};
use crate::path_refusals::{paths, Inputs};
use crate::texts::{slash_and, MOST_PATH, MOST_PATTERN};

/// Patterns that are good, too long, empty or unreadable. A long one that is
/// unreadable too comes under 1.
fn patterns() -> Inputs {
    let mut patterns = vec![
        (b"/".to_vec(), None),
        (b"/*$".to_vec(), None),
        (b"*".to_vec(), None),
        (b"**$".to_vec(), None),
        (slash_and(b'*', MOST_PATTERN), None),
        (vec![b'*'; MOST_PATTERN], None),
        (slash_and(b'*', MOST_PATTERN + 1), Some(1)),
        (vec![b'*'; MOST_PATTERN + 1], Some(1)),
        (vec![b' '; MOST_PATTERN + 1], Some(1)),
        (slash_and(0xFF, MOST_PATTERN + 1), Some(1)),
    ];
    for unreadable in UNREADABLE {
        patterns.push((unreadable.to_vec(), Some(8)));
    }
    patterns
}

/// "pattern empty or unreadable": "a readable pattern begins with "/" or "*""
/// (M-102) "and is well-formed by the RFC's UTF8-char-noctl rule (no octet
/// under 0x21; 0x7F is accepted; surrogates and overlong forms aren't)".
const UNREADABLE: [&[u8]; 31] = [
    b"",
    b"a",
    b"$",
    b"$*",
    b"$/",
    b"%2F",
    b"%2A",
    b" *",
    b"* ",
    b"*#",
    b"*\xC3",
    b"**\x80",
    b" /",
    b"/ ",
    b"/a b",
    b"/\t",
    b"/\0",
    b"/\x1F",
    b"/\r\n",
    b"/#",
    b"/a#b",
    b"\xEF\xBB\xBF/",
    // a tail alone, a first octet alone, cut short before a star, an end mark
    // and an escape
    b"/\x80",
    b"/\xC3",
    b"/\xC3*\xA9",
    b"/\xE3\x83$",
    b"/\xE3\x83%84",
    // overlong, a surrogate, too high, no UTF-8
    b"/\xC0\xAF",
    b"/\xED\xA0\x80",
    b"/\xF4\x90\x80\x80",
    b"/\xFF",
];

/// Each pattern with each path: the smaller number is given, and without one
/// there is an answer.
#[test]
fn the_smallest_number_first() {
    for (pattern, of_pattern) in patterns() {
        for (path, of_path) in paths() {
            match of_pattern.into_iter().chain(of_path).min() {
                Some(refusal) => check_refused_match(&pattern, &path, refusal),
                // each good pattern is stars, behind a "/" perhaps, which costs 1
                None => {
                    let compared = usize::from(pattern.starts_with(b"/"));
                    check_walk(&pattern, &path, true, compared);
                }
            }
        }
    }
}

/// The same order, written down.
#[test]
fn two_refusals_at_once() {
    let too_long = slash_and(b'a', MOST_PATTERN + 1);
    let long_path = vec![b'a'; MOST_PATH + 1];
    for (pattern, path, refusal) in [
        (too_long.as_slice(), b"".as_slice(), 1),
        (&too_long, b"a", 1),
        (&too_long, b"/#", 1),
        (&[b'#'; MOST_PATTERN + 1], b"/", 1),
        (b"/", &long_path, 3),
        (b"", b"", 3),
        (b"#", &long_path, 3),
        (b"/", b"#", 4),
        (b"", b"a", 4),
        (b"", b"/#", 5),
        (b"/#", b"/#", 5),
        (b"/#", b"/", 8),
        (b"", b"/", 8),
        (b"*", b"", 3),
        (b"*", b"*", 4),
        (b"*#", b"/#", 5),
        (b"*#", b"/", 8),
        (b"$", b"/", 8),
    ] {
        check_refused_match(pattern, path, refusal);
    }
}

/// Characters on the near side of every limit of a refusal.
#[test]
fn readable_patterns() {
    for (character, triples) in [
        ("\u{80}", 2),
        ("\u{7ff}", 2),
        ("\u{800}", 3),
        ("\u{d7ff}", 3),
        ("\u{e000}", 3),
        ("\u{ffff}", 3),
        ("\u{10000}", 4),
        ("\u{10ffff}", 4),
    ] {
        // "/", and "%" and two digits for each octet
        let text = format!("/{character}");
        check_walk(text.as_bytes(), text.as_bytes(), true, 1 + 3 * triples);
        // behind a star, tried at 0 too: the first octet differs
        let star_first = format!("*{character}");
        check_walk(
            star_first.as_bytes(),
            text.as_bytes(),
            true,
            1 + 3 * triples,
        );
    }
    check_walk(b"/!", b"/!", true, 2);
    check_walk(b"/\"", b"/\"", true, 2);
    check_walk(b"/\x7F", b"/\x7F", true, 4);
}
