//! The dialect of 1996 (document 02, M-113), and the RFC's beside it.

use std::collections::BTreeMap;

use evaluator::{Decision, DRAFT1996, RFC9309};
use generator::{DecideCase, SEED};

use crate::deciding::{check_decide_in, numbers_in, question_shown};
use crate::dense::sort;
use crate::small_files::check_files_of;
use crate::texts::{lengthened, slash_and, MOST_FILE, MOST_NORMALISED, MOST_PATH};

/// Generated questions for this dialect, and of each of three other sorts.
const GENERATED: usize = 220_000;
const OTHERS: usize = 40_000;
const LONG: usize = 60;

/// One question of so many is asked inside larger memory too.
const INSIDE: usize = 3;

/// What a file, a name and a path could be taken to go on with.
const BEHIND: [&[u8]; 4] = [b"*", b"$", b"a", b"%2A"];

fn check(case: &DecideCase) -> Decision {
    check_decide_in(DRAFT1996, &case.file, &case.name, &case.path)
}

/// The answer is the same where each part stands inside larger memory.
fn check_inside(case: &DecideCase, index: usize, expected: &Decision) {
    let before = index % 16 + 1;
    let behind = BEHIND[index / 16 % BEHIND.len()];
    let parts = [&case.file, &case.name, &case.path];
    let memory = parts.map(|part| [&vec![b'/'; before], part.as_slice(), behind].concat());
    let inside = |at: usize| &memory[at][before..before + parts[at].len()];
    let answer = numbers_in(DRAFT1996, inside(0), inside(1), inside(2));
    let message = || question_shown(&case.file, &case.name, &case.path);
    assert_eq!(answer, *expected, "inside, {before}: {}", message());
}

/// At least half of them are matched by a rule that applies, and all sorts of
/// answers and refusals of a short file are well represented.
#[test]
fn many_generated_questions() {
    let mut seen: BTreeMap<String, usize> = BTreeMap::new();
    let (mut matched, mut other, mut dearer) = (0, 0, 0);
    for (index, case) in generator::draft_decide_cases(SEED, GENERATED).enumerate() {
        let decision = check(&case);
        if index % INSIDE == 0 {
            check_inside(&case, index, &decision);
        }
        *seen.entry(sort(&decision)).or_default() += 1;
        // a rule that matches decides, or one before it does
        matched += usize::from(decision.line > 0);
        let of_rfc = evaluator::decide(&case.file, &case.name, &case.path);
        other += usize::from(of_rfc.disallow != decision.disallow);
        dearer += usize::from(of_rfc.compared > decision.compared);
    }
    println!("{seen:?}, {matched} of {GENERATED} matched");
    println!("the RFC's answer is the other: {other}, and compares more: {dearer}");
    let total: usize = seen.values().sum();
    assert!(total == GENERATED && total >= 200_000, "{total}");
    assert!(2 * matched >= total, "{matched} of {total}");
    assert!(other > 20_000 && dearer > 50_000, "{other}, {dearer}");
    for (sort, least) in [
        ("allow by no rule", 20_000),
        ("allow by a rule", 50_000),
        ("disallow", 50_000),
        ("refusal 2", 2_000),
        ("refusal 3", 1_000),
        ("refusal 4", 1_000),
        ("refusal 5", 1_000),
    ] {
        let count = seen.get(sort).copied().unwrap_or(0);
        assert!(count >= least, "{sort}: {count}, under {least}");
    }
}

/// The questions that were made for the RFC's dialect, asked in this one.
#[test]
fn questions_of_other_sorts() {
    let cases = generator::decide_cases(SEED, OTHERS)
        .chain(generator::derived_decide_cases(SEED, OTHERS))
        .chain(generator::dense_decide_cases(SEED, OTHERS))
        .chain(generator::long_decide_cases(SEED, LONG))
        .chain(generator::decide_edges());
    let mut matched = 0;
    for case in cases {
        matched += usize::from(check(&case).line > 0);
    }
    println!("{matched} matched");
    assert!(matched > 20_000, "{matched}");
}

/// Every two of many patterns, on either side and in two groups, asked about
/// many paths in both dialects.
#[test]
fn every_written_down_question() {
    let mut seen = [0; 3];
    for case in generator::draft_decide_edges() {
        let of_draft = check(&case);
        let of_rfc = check_decide_in(RFC9309, &case.file, &case.name, &case.path);
        assert_eq!(of_draft.refusal, of_rfc.refusal, "{case:?}");
        assert_eq!(of_draft.unread, of_rfc.unread, "{case:?}");
        seen[usize::from(of_draft.disallow != of_rfc.disallow)] += 1;
        seen[2] += usize::from(of_draft.line > 0);
    }
    println!("alike, not alike, and matched: {seen:?}");
    assert!(seen.iter().all(|count| *count > 15_000), "{seen:?}");
}

/// "star and dollar in a pattern are plain octets, normalised as in a path":
/// every short pattern of these octets against every short path of them.
#[test]
fn every_short_pattern() {
    let letters = b"*$%2A4";
    let mut matched = 0;
    for pattern in generator::after_slash_or_star(letters, 3) {
        let file = [b"user-agent: *\ndisallow: ", pattern.as_slice()].concat();
        for path in generator::after_slash(letters, 3) {
            let answer = check_decide_in(DRAFT1996, &file, b"a", &path);
            matched += usize::from(answer.disallow);
        }
    }
    println!("{matched} matched");
    assert!(matched > 1_000, "{matched}");
}

const LINES: [&str; 9] = [
    "user-agent: a",
    "user-agent: *",
    "user-agent: B/2.1",
    "allow: /",
    "disallow: /x",
    "disallow: *",
    "allow: /x$",
    "disallow: x",
    "allow:",
];

/// Rules that the dialects read otherwise, in all orders.
#[test]
fn every_file_of_few_lines() {
    check_files_of(DRAFT1996, LINES, b"/x$");
}

/// Library and evaluator give disallow, line, length and compared by one rule.
fn check_one_rule(pattern: &[u8], path: &[u8], disallow: bool, compared: usize) {
    let file = [b"user-agent:*\ndisallow:", pattern].concat();
    let answer = check_decide_in(DRAFT1996, &file, b"a", path);
    let given = (answer.disallow, answer.line, answer.length, answer.compared);
    let expected = match disallow {
        true => (true, 2, pattern.len(), compared),
        false => (false, 0, 0, compared),
    };
    assert_eq!(given, expected, "a pattern of {} octets", pattern.len());
}

/// The longest path is 6,142 octets, and so are these patterns but one; %24 and
/// %2A differ at their last octet.
#[test]
fn the_longest_path() {
    let path = slash_and(b'*', MOST_PATH);
    check_one_rule(&path, &path, true, MOST_NORMALISED);
    let other = lengthened(b"/", b"*", b"$", MOST_PATH);
    check_one_rule(&other, &path, false, MOST_NORMALISED);
    check_one_rule(&slash_and(b'*', MOST_PATH + 1), &path, false, 0);
    check_one_rule(&slash_and(b'*', MOST_FILE - 22), &path, false, 0);
}

/// Counts of files as long as one may be.
#[test]
fn the_longest_files() {
    let head = b"user-agent:*\n";
    // 42,665 rules of 12 octets and "disallo", each with "/" and "a"
    let file = lengthened(head, b"disallow:/a\n", b"", MOST_FILE);
    let answer = check_decide_in(DRAFT1996, &file, b"a", b"/b");
    assert_eq!((answer.disallow, answer.compared), (false, 2 * 42_665));
    // the first decides, or the last, behind 42,664 and 8 octets of the next
    let answer = check_decide_in(DRAFT1996, &file, b"a", b"/a");
    assert_eq!((answer.line, answer.compared), (2, 2));
    let file = lengthened(head, b"disallow:/a\n", b"\ndisallow:/", MOST_FILE);
    let answer = check_decide_in(DRAFT1996, &file, b"a", b"/b");
    assert_eq!((answer.disallow, answer.compared), (true, 2 * 42_664 + 1));
    assert_eq!(answer.line, 42_664 + 3);
}

/// "at most the summed weights of those rules, times the octets of the
/// normalised path", "the sum here ending with the deciding rule"
#[test]
fn the_count_is_bounded() {
    for case in generator::draft_decide_cases(SEED + 1, 20_000) {
        let (file, name, path) = (&case.file, &case.name, &case.path);
        let compared = library::decide_compared(DRAFT1996, file, name, path);
        let bound = evaluator::compared_bound(DRAFT1996, file, name, path);
        assert!(compared <= bound, "{compared}, bound {bound}: {case:?}");
    }
}
