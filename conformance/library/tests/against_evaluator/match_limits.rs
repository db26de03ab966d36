//! Patterns and paths at their limits, and memory around them.

use std::thread;

use crate::ask::{both_shown, check_match, check_refused_match, check_walk, match_in_place};
use crate::texts::{lengthened, slash_and, surrounded, MOST_NORMALISED, MOST_PATH, MOST_PATTERN};

/// A pattern of 512,000 octets is answered, and one of the same form with one
/// octet more isn't: "file, pattern or line longer than 512,000 octets".
fn check_longest(
    (beginning, block, end): (&[u8], &[u8], &[u8]),
    path: &[u8],
    found: bool,
    compared: usize,
) {
    let pattern = lengthened(beginning, block, end, MOST_PATTERN);
    check_walk(&pattern, path, found, compared);
    let pattern = lengthened(beginning, block, end, MOST_PATTERN + 1);
    check_refused_match(&pattern, path, 1);
}

/// "A try that would pass p fails the rule at no cost."
#[test]
fn longest_patterns_of_one_run() {
    for path in [slash_and(b'a', MOST_PATH), b"/".to_vec()] {
        check_longest((b"/", b"a", b""), &path, false, 0);
        check_longest((b"/", b"a", b"$"), &path, false, 0);
        check_longest((b"/", b"%", b""), &path, false, 0);
        check_longest((b"/", b"%61", b"a"), &path, false, 0);
        // the last run alone is too long
        check_longest((b"/*", b"a", b""), &path, false, 1);
        check_longest((b"/*", b"a", b"$"), &path, false, 1);
        check_longest((b"/*", b"%", b""), &path, false, 1);
        check_longest((b"*", b"a", b""), &path, false, 0);
        check_longest((b"*", b"%", b"$"), &path, false, 0);
        // the first run alone is
        check_longest((b"/", b"a", b"*"), &path, false, 0);
        check_longest((b"/", b"a", b"*$"), &path, false, 0);
    }
    // 255,999 characters of two octets each, and one octet
    let pattern = lengthened(b"/", "\u{e9}".as_bytes(), b"", MOST_PATTERN - 1);
    check_walk(&[pattern.as_slice(), b"a"].concat(), b"/", false, 0);
    check_refused_match(&[pattern.as_slice(), b"\xC3"].concat(), b"/", 8);
}

/// "an empty one costs nothing"
#[test]
fn longest_patterns_of_stars() {
    for path in [slash_and(b'%', MOST_PATH), b"/".to_vec()] {
        check_longest((b"/", b"*", b""), &path, true, 1);
        check_longest((b"/", b"*", b"$"), &path, true, 1);
        check_longest((b"", b"*", b""), &path, true, 0);
        check_longest((b"", b"*", b"$"), &path, true, 0);
    }
    let path = slash_and(b'a', MOST_PATH);
    // "a" at 1
    check_longest((b"/", b"*", b"a"), &path, true, 2);
    // "a" at 2,047 only
    check_longest((b"/", b"*", b"a$"), &path, true, 2);
    // "b" at 1 to 2,047
    check_longest((b"/", b"*", b"b"), &path, false, MOST_PATH);
    check_longest((b"/", b"*", b"b$"), &path, false, 2);
    // "a" at 0 and 1, and at 2,047 only; "b" at 0 to 2,047
    check_longest((b"", b"*", b"a"), &path, true, 2);
    check_longest((b"", b"*", b"a$"), &path, true, 1);
    check_longest((b"", b"*", b"b"), &path, false, MOST_PATH);
}

/// "After the first failed run the rule is done."
#[test]
fn longest_patterns_of_stars_and_octets() {
    let path = slash_and(b'a', MOST_PATH);
    // each "a" costs 1, while there are any
    check_longest((b"/", b"*a", b""), &path, false, MOST_PATH);
    check_longest((b"/", b"*a", b"$"), &path, false, MOST_PATH);
    check_longest((b"/", b"*a", b""), b"/a", false, 2);
    // the first "a" at 0 too, where "/" stands
    check_longest((b"", b"*a", b""), &path, false, MOST_PATH);
    check_longest((b"/", b"a*", b""), &path, false, MOST_PATH);
    // as many as the path has, and then stars
    let all = [b"/".as_slice(), &b"*a".repeat(MOST_PATH - 1)].concat();
    check_longest((&all, b"*", b""), &path, true, MOST_PATH);
    check_longest((&all, b"*", b"$"), &path, true, MOST_PATH);
    check_longest((&all, b"*", b"a"), &path, false, MOST_PATH);
    // each "%" is "%25"
    let path = slash_and(b'%', MOST_PATH);
    check_longest((b"/", b"*%", b""), &path, false, MOST_NORMALISED);
    let all = [b"/".as_slice(), &b"*%".repeat(MOST_PATH - 1)].concat();
    check_longest((&all, b"*", b""), &path, true, MOST_NORMALISED);
    // each "5" is found at its third try
    check_longest((b"/", b"*5", b""), &path, false, MOST_NORMALISED);
    let all = [b"/".as_slice(), &b"*5".repeat(MOST_PATH - 1)].concat();
    check_longest((&all, b"*", b"$"), &path, true, MOST_NORMALISED);
}

/// "path empty or over 2,048 octets"
#[test]
fn longest_paths() {
    for octet in *b"a/%*$\xFF" {
        let path = slash_and(octet, MOST_PATH);
        check_walk(b"/", &path, true, 1);
        check_walk(b"/*$", &path, true, 1);
        check_match(b"/*a", &path);
        check_match(b"/**%%", &path);
        let path = slash_and(octet, MOST_PATH + 1);
        check_refused_match(b"/", &path, 3);
        check_refused_match(b"/*$", &path, 3);
    }
}

/// Runs about as long as the longest normalised path: 6,142 octets.
#[test]
fn longest_runs() {
    let path = slash_and(b'%', MOST_PATH);
    let triples = b"%".repeat(MOST_PATH - 1);
    let check = |beginning: &[u8], end: &[u8], found, compared| {
        let pattern = [beginning, &triples, end].concat();
        check_walk(&pattern, &path, found, compared);
    };
    // 6,142 octets, the path's own
    check(b"/", b"", true, MOST_NORMALISED);
    check(b"/", b"$", true, MOST_NORMALISED);
    check(b"/", b"*", true, MOST_NORMALISED);
    check(b"/", b"*$", true, MOST_NORMALISED);
    // one octet more, two more and three more
    check(b"/", b"z", false, 0);
    check(b"/", b"z$", false, 0);
    check(b"/", b"zz", false, 0);
    check(b"/", b"%", false, 0);
    // the last "%" with "aa" is "%AA": all but the last octet are compared
    check(b"/", b"aa", false, MOST_NORMALISED - 1);
    // a later run of 6,141 octets, and of up to three more
    check(b"/*", b"", true, MOST_NORMALISED);
    check(b"/*", b"$", true, MOST_NORMALISED);
    check(b"/*", b"*z", false, MOST_NORMALISED);
    check(b"/*", b"z", false, 1);
    check(b"/*", b"z$", false, 1);
    check(b"/*", b"zz", false, 1);
    check(b"/*", b"%", false, 1);
    check(b"/*/", b"", false, 1);
    // behind a star: 6,142 octets at 0, and 6,141 at 0 and 1, or at 1 only
    check(b"*/", b"", true, MOST_NORMALISED);
    check(b"*/", b"$", true, MOST_NORMALISED);
    check(b"*/", b"z", false, 0);
    check(b"*", b"", true, MOST_NORMALISED);
    check(b"*", b"$", true, MOST_NORMALISED - 1);
    // 6,142 octets, which only begin at 0, and one more
    check(b"*", b"z", false, 1);
    check(b"*", b"z$", false, 1);
    check(b"*", b"zz", false, 0);
}

/// Patterns that are longer than any path, and match: normalised they are as
/// long as the path.
#[test]
fn long_spellings() {
    let path = slash_and(b'a', MOST_PATH);
    let spelt = b"%61".repeat(MOST_PATH - 1);
    for end in ["", "$", "*", "*$"] {
        let pattern = [b"/", spelt.as_slice(), end.as_bytes()].concat();
        check_walk(&pattern, &path, true, MOST_PATH);
        let pattern = [b"/*", spelt.as_slice(), end.as_bytes()].concat();
        check_walk(&pattern, &path, true, MOST_PATH);
        let pattern = [b"/%61", spelt.as_slice(), end.as_bytes()].concat();
        check_walk(&pattern, &path, false, 0);
    }
}

/// What could be taken for a part of a pattern or a path, before and behind
/// it.
const NEIGHBOURS: [(&str, &str); 7] = [
    ("", ""),
    ("/", "$"),
    ("*", "*"),
    ("%", "41"),
    ("%4", "1"),
    ("#", "#"),
    ("\u{e9}", "\u{e9}"),
];

/// Pattern and path inside larger memory, from every place of a word: what
/// lies before and behind them isn't seen.
#[test]
fn memory_around_pattern_and_path_is_unseen() {
    let texts = [
        "", "/", "/a", "/%", "/%4", "/a*", "/*a", "/a$", "*", "*a", "*$",
    ];
    for (before, after) in NEIGHBOURS {
        for start in before.len()..before.len() + 8 {
            for (pattern, path) in pairs(&texts) {
                let around_pattern = surrounded(pattern, before, after, start);
                let around_path = surrounded(path, before, after, start);
                let answer = match_in_place(
                    &around_pattern[start..start + pattern.len()],
                    &around_path[start..start + path.len()],
                );
                let alone = evaluator::match_pattern(pattern.as_bytes(), path.as_bytes());
                let message = both_shown(&around_pattern, &around_path);
                assert_eq!(
                    answer, alone,
                    "{pattern} and {path} at {start} of {message}"
                );
            }
        }
    }
}

fn pairs<'a>(texts: &'a [&'a str]) -> impl Iterator<Item = (&'a str, &'a str)> {
    texts
        .iter()
        .flat_map(move |one| texts.iter().map(move |other| (*one, *other)))
}

/// One memory may be given twice, whole or in parts that overlap.
#[test]
fn pattern_and_path_in_the_same_memory() {
    let memory = b"/a/a*b$/a/a";
    for start in 0..memory.len() {
        for end in start..=memory.len() {
            for other in [start, 0, 2] {
                let (pattern, path) = (&memory[start..end], &memory[other..]);
                let expected = evaluator::match_pattern(pattern, path);
                let answer = match_in_place(pattern, path);
                assert_eq!(answer, expected, "{}", both_shown(pattern, path));
            }
        }
    }
}

/// The stack of a thread: the 16 KiB that the header names, and room for the
/// thread and the test themselves. A call that needs far more ends the test
/// program.
const STACK: usize = 32 * 1_024;

/// The longest patterns need no more stack than others.
#[test]
fn a_small_stack_is_enough() {
    let path = slash_and(b'%', MOST_PATH);
    let blocks = ["a", "*", "%", "*%", "*5", "%25*"].map(|block| ("/", block));
    for (first, block) in blocks.into_iter().chain([("*", "5*"), ("*", "%")]) {
        let pattern = lengthened(first.as_bytes(), block.as_bytes(), b"$", MOST_PATTERN);
        let expected = evaluator::match_pattern(&pattern, &path);
        let answer = thread::scope(|scope| {
            thread::Builder::new()
                .stack_size(STACK)
                .spawn_scoped(scope, || match_in_place(&pattern, &path))
                .expect("a thread can be started")
                .join()
                .expect("the thread ends")
        });
        assert_eq!(answer, expected, "{}", both_shown(&pattern, &path));
    }
}
