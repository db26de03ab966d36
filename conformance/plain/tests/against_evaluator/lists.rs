//! Lists of paths (document 02, M-101): each answer is what the evaluator gives
//! for the path alone.

use std::collections::BTreeMap;

use evaluator::{Decision, DRAFT1996, RFC9309};
use generator::{DecideCase, SEED};

use crate::ask::exact;
use crate::deciding::question_shown;
use crate::dense::sort;

/// What every place of a lent slice holds before.
const BEFORE: usize = 4_711;

/// Generated files of each sort, and long ones, with the paths of so many
/// neighbouring questions each.
const GENERATED: usize = 12_000;
const LONG: usize = 20;
const PATHS: usize = 7;

/// A call's refusal, and its three slices: refusals, sides and lines.
pub type Answer = (usize, [Vec<usize>; 3]);

/// The paths joined, and their ends.
pub fn joined(paths: &[&[u8]]) -> (Vec<u8>, Vec<usize>) {
    let mut ends = Vec::new();
    let mut octets = Vec::new();
    for path in paths {
        octets.extend_from_slice(path);
        ends.push(octets.len());
    }
    (octets, ends)
}

/// Asks with slices of these lengths.
pub fn ask(
    dialect: usize,
    [file, name, paths]: [&[u8]; 3],
    ends: &[usize],
    lengths: [usize; 3],
) -> Answer {
    let given = [file, name, paths].map(exact);
    let given_ends: Box<[usize]> = Box::from(ends);
    let [mut refusals, mut sides, mut lines] = lengths.map(|length| vec![BEFORE; length]);
    let refused = library::batch(
        dialect,
        &given[0],
        &given[1],
        &given[2],
        &given_ends,
        &mut refusals,
        &mut sides,
        &mut lines,
    );
    assert!(
        *given[0] == *file && *given[1] == *name && *given[2] == *paths && *given_ends == *ends,
        "changed"
    );
    (refused, [refusals, sides, lines])
}

/// Slices of these lengths in which nothing is written.
pub fn unwritten(lengths: [usize; 3]) -> [Vec<usize>; 3] {
    lengths.map(|length| vec![BEFORE; length])
}

/// Each path is answered as by the evaluator alone, and the places beyond the
/// last path stay; gives the evaluator's decisions.
pub fn check_list(dialect: usize, file: &[u8], name: &[u8], paths: &[&[u8]]) -> Vec<Decision> {
    let (octets, ends) = joined(paths);
    let more = [0, 1, 3].map(|more| paths.len() + more);
    let answer = ask(dialect, [file, name, &octets], &ends, more);
    let mut expected = unwritten(more);
    let decisions: Vec<Decision> = paths
        .iter()
        .map(|path| evaluator::decide_in(dialect, file, name, path))
        .collect();
    for (at, decision) in decisions.iter().enumerate() {
        let disallow = usize::from(decision.disallow);
        let numbers = [decision.refusal, disallow, decision.line];
        for (slice, number) in expected.iter_mut().zip(numbers) {
            slice[at] = number;
        }
    }
    let message = || question_shown(file, name, &octets);
    assert_eq!(answer, (0, expected), "dialect {dialect}, {}", message());
    decisions
}

/// The file and name of the first of these questions, with the paths of all.
fn check_cases(dialect: usize, cases: &[DecideCase], seen: &mut BTreeMap<String, usize>) {
    let DecideCase { file, name, .. } = &cases[0];
    let paths: Vec<&[u8]> = cases.iter().map(|case| case.path.as_slice()).collect();
    let refused = evaluator::decide_in(dialect, file, name, b"/").refusal;
    if refused == 0 {
        for decision in check_list(dialect, file, name, &paths) {
            *seen.entry(sort(&decision)).or_default() += 1;
        }
        return;
    }
    let (octets, ends) = joined(&paths);
    let lengths = [paths.len(); 3];
    let answer = ask(dialect, [file, name, &octets], &ends, lengths);
    assert_eq!(answer, (refused, unwritten(lengths)), "{cases:?}");
    *seen.entry(format!("call refused {refused}")).or_default() += 1;
}

/// All sorts of answers, of paths' refusals and of calls' are well represented.
#[test]
fn many_generated_lists() {
    let cases: Vec<DecideCase> = generator::decide_cases(SEED, GENERATED)
        .chain(generator::derived_decide_cases(SEED, GENERATED))
        .chain(generator::draft_decide_cases(SEED, GENERATED))
        .chain(generator::long_decide_cases(SEED, LONG))
        .collect();
    let mut seen = BTreeMap::new();
    for (at, cases) in cases.windows(PATHS).enumerate() {
        check_cases([RFC9309, DRAFT1996][at % 2], cases, &mut seen);
    }
    println!("{seen:?}");
    for (sort, least) in [
        ("allow by no rule", 50_000),
        ("allow by a rule", 20_000),
        ("disallow", 20_000),
        ("refusal 3", 2_000),
        ("refusal 4", 2_000),
        ("refusal 5", 2_000),
        ("call refused 1", 5),
        ("call refused 2", 500),
    ] {
        let count = seen.get(sort).copied().unwrap_or(0);
        assert!(count >= least, "{sort}: {count}, under {least}");
    }
}

/// Paths that could take octets from their neighbours, `/robots.txt`, and
/// refused ones between others.
#[test]
fn neighbouring_paths() {
    let file = b"user-agent: *\ndisallow: /aA\ndisallow: /a%4\nallow: /aA/b\ndisallow: /robots";
    let lists: [&[&[u8]]; 9] = [
        &[b"/a%4", b"1/b", b"/a%41/b"],
        &[b"/a%", b"41", b"/a%", b"/41"],
        &[b"/", b"robots.txt", b"/robots.txt", b"/robots", b".txt"],
        &[b"/robots.tx", b"t", b"/%72obots.txt", b"/robots.txt?x"],
        &[b"", b"/aA", b""],
        &[b"", b"", b""],
        &[b"/aA", b"#", b"/aA/b", b" ", b"/aA"],
        &[b"/aA#", b"/aA", b"x/aA", b"/aA/b"],
        &[b"/aA"],
    ];
    for list in lists {
        for dialect in [RFC9309, DRAFT1996] {
            check_list(dialect, file, b"a", list);
        }
    }
}

/// A path of every length up to the longest, and one octet more.
#[test]
fn paths_of_every_length() {
    let octets = b"/a%b*".repeat(500);
    let paths: Vec<&[u8]> = (0..=2_049).map(|length| &octets[..length]).collect();
    let file = b"user-agent: a\nallow: /*%b*$\ndisallow: /a%25\ndisallow: /*b%2A/";
    for dialect in [RFC9309, DRAFT1996] {
        let decisions = check_list(dialect, file, b"A", &paths);
        let refused = decisions.iter().filter(|decision| decision.refusal == 3);
        assert_eq!(refused.count(), 2);
    }
}
