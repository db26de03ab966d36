//! Every octet in every part of a pattern.

use crate::ask::{check_match, check_refused_match, check_walk, each_between, each_two_between};
use crate::texts::TAILS;

/// Checks the patterns that have each octet between these two parts.
fn check_between(before: &[u8], after: &[u8], path: &[u8]) {
    each_between(before, after, |pattern| {
        check_match(pattern, path);
    });
}

/// Checks the patterns that have each two octets between these two parts,
/// each against the path of the same octets, with "/" as its first.
fn check_two_between(before: &[u8], after: &[u8]) {
    each_two_between(before, after, |pattern| {
        check_match(pattern, &[b"/", &pattern[1..]].concat());
    });
}

/// The same octet behind "/" in pattern and path, each by its own sentence.
#[test]
fn the_same_octet_in_pattern_and_path() {
    for octet in 0..=255 {
        let text = [b'/', octet];
        match octet {
            // "path holds an octet of 0x20 or less, or "#""
            0..=0x20 | b'#' => check_refused_match(&text, &text, 5),
            // "In a pattern "*" is a star"; "/" costs 1 and the empty run
            // behind the star nothing
            b'*' => check_walk(&text, &text, true, 1),
            // the end mark; the path is "/%24", so the run "/" doesn't start
            // at 0
            b'$' => check_walk(&text, &text, false, 0),
            // "any other "%": %25"; "an octet of 0x7F or more: "%" and two
            // upper-case hex digits"
            b'%' | 0x7F => check_walk(&text, &text, true, 4),
            // no octet over 0x7F is a character by itself
            0x80.. => check_refused_match(&text, &text, 8),
            // "anything else as it is"
            _ => check_walk(&text, &text, true, 2),
        }
    }
}

/// The same octet behind a star in the pattern and behind "/" in the path. The
/// run is tried at 0 first.
#[test]
fn the_same_octet_behind_a_star() {
    for octet in 0..=255 {
        let (pattern, path) = ([b'*', octet], [b'/', octet]);
        match octet {
            0..=0x20 | b'#' => check_refused_match(&pattern, &path, 5),
            // nothing but empty runs
            b'*' | b'$' => check_walk(&pattern, &path, true, 0),
            // stands at 0
            b'/' => check_walk(&pattern, &path, true, 1),
            // "%" and two digits: 1 at 0 and 3 at 1
            b'%' | 0x7F => check_walk(&pattern, &path, true, 4),
            0x80.. => check_refused_match(&pattern, &path, 8),
            // 1 at 0 and 1 at 1
            _ => check_walk(&pattern, &path, true, 2),
        }
    }
}

/// "a readable pattern begins with "/" or "*"" (M-102).
#[test]
fn the_first_octet() {
    for octet in 0..=255 {
        for (rest, of_slash, of_star) in [("", 1, 0), ("*$", 1, 0), ("a", 2, 2), ("a$", 2, 1)] {
            let pattern = [&[octet], rest.as_bytes()].concat();
            match octet {
                b'/' => check_walk(&pattern, b"/a", true, of_slash),
                // "a" at 0 and 1, with an end mark at 1 only
                b'*' => check_walk(&pattern, b"/a", true, of_star),
                _ => check_refused_match(&pattern, b"/a", 8),
            }
        }
    }
}

/// The octet behind "/" in the pattern, "%" and its two digits in the path.
#[test]
fn an_octet_and_its_escape() {
    for octet in 0x21..=0x7F {
        let (raw, spelt) = ([b'/', octet], format!("/%{octet:02x}"));
        let unreserved = octet.is_ascii_alphanumeric() || b"-._~".contains(&octet);
        match octet {
            b'#' => check_refused_match(&raw, spelt.as_bytes(), 8),
            b'*' => check_walk(&raw, spelt.as_bytes(), true, 1),
            b'$' => check_walk(&raw, spelt.as_bytes(), false, 0),
            b'%' | 0x7F => check_walk(&raw, spelt.as_bytes(), true, 4),
            _ if unreserved => check_walk(&raw, spelt.as_bytes(), true, 2),
            // the path is "%" and two digits
            _ => check_walk(&raw, spelt.as_bytes(), false, 2),
        }
    }
}

/// Every octet behind "/" and behind a star in the pattern with every one in
/// the path.
#[test]
fn every_two_octets() {
    for held in 0..=255 {
        check_between(b"/", b"", &[b'/', held]);
        check_between(b"*", b"", &[b'/', held]);
        check_between(b"", b"/", &[held]);
    }
}

/// In every place of a pattern: first, in a run, beside stars, at the end.
#[test]
fn in_every_place() {
    for (before, after) in [
        ("", ""),
        ("", "/a"),
        ("", "*b"),
        ("*", ""),
        ("*", "b$"),
        ("/", "a"),
        ("/a", ""),
        ("/a", "$"),
        ("/*", ""),
        ("/*", "b"),
        ("/a", "*b"),
        ("/*", "*"),
        ("/*", "$"),
    ] {
        let (before, after) = (before.as_bytes(), after.as_bytes());
        for path in ["/", "/a", "/ab", "/aab", "/a%24", "/%25b", "/b%E3%83%84"] {
            check_between(before, after, path.as_bytes());
        }
        each_between(before, after, |pattern| {
            each_between(b"/a", b"b", |path| {
                check_match(pattern, path);
            });
        });
    }
}

/// Two octets behind "%", at the end of the pattern, inside it and before a
/// star and an end mark.
#[test]
fn both_digits_of_an_escape() {
    check_two_between(b"/%", b"");
    check_two_between(b"/%", b"b");
    check_two_between(b"/%", b"*");
    check_two_between(b"/%", b"$");
    check_two_between(b"/*%", b"");
    check_two_between(b"*%", b"");
}

/// Stars and end marks in the place of digits.
#[test]
fn escapes_cut_short() {
    let paths = ["/%41", "/A", "/%", "/%4", "/%x41", "/%4x1", "/a%2F", "/$"];
    for end in [
        "%", "%4", "%*", "%$", "%4*", "%4$", "%*41", "%4*1", "%**41", "%4**1", "%41*", "%%41",
        "%4%41", "%2*F", "%2*f", "%*2F", "%$41", "%4$1", "%41$", "%%", "%%$", "%*%", "%2$4",
    ] {
        for path in paths {
            check_match(format!("/{end}").as_bytes(), path.as_bytes());
            check_match(format!("/a{end}").as_bytes(), path.as_bytes());
            check_match(format!("/*{end}").as_bytes(), path.as_bytes());
            check_match(format!("*{end}").as_bytes(), path.as_bytes());
        }
    }
}

/// A first octet of UTF-8 and every second one.
#[test]
fn two_octets_of_utf8() {
    for after in [b"".as_slice(), b"x", b"*", b"$", b"\x80"] {
        check_two_between(b"/", after);
    }
    check_two_between(b"*", b"");
    check_two_between(b"", b"");
}

/// Each octet in each place of three and of four, behind "/" and behind a star
/// by turns.
#[test]
fn more_octets_of_utf8() {
    for lead in 0xDF..=0xF6 {
        for one in TAILS {
            for other in TAILS {
                let first = b"/*"[usize::from((lead ^ one ^ other) % 2)];
                check_between(&[first, lead, one, other], b"", b"/x");
                check_between(&[first, lead, one], &[other], b"/x");
                check_between(&[first, lead], &[one, other], b"/x");
            }
        }
    }
}
