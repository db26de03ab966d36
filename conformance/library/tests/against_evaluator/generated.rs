//! Written-down and generated questions for a decision and about a line.

use std::collections::{BTreeMap, BTreeSet};

use evaluator::Decision;
use generator::SEED;

use crate::ask::check_line;
use crate::deciding::check_decide;
use crate::texts::name_of;

/// Of each of two sorts.
const DECISIONS: usize = 110_000;
const LONG_DECISIONS: usize = 240;
const LINES: usize = 150_000;

#[test]
fn every_written_down_decision() {
    for case in generator::decide_edges() {
        check_decide(&case.file, &case.name, &case.path);
    }
}

#[test]
fn every_written_down_line() {
    for case in generator::line_edges() {
        check_line(&case.line);
    }
}

/// What a decision is counted as.
fn sort(decision: &Decision) -> String {
    match decision {
        Decision { refusal: 1.., .. } => format!("refusal {}", decision.refusal),
        Decision { line: 0, .. } => "allow by no rule".to_string(),
        Decision { disallow: true, .. } => "disallow".to_string(),
        Decision { .. } => "allow by a rule".to_string(),
    }
}

/// The name of a line's value, if it is a readable agent's and something stands
/// behind the name.
fn name_with_more(line: &[u8]) -> Option<&[u8]> {
    let told = evaluator::line_kind(line);
    let name = name_of(&line[told.place..told.place + told.length]);
    (told.kind == 4 && !name.is_empty() && name.len() < told.length).then_some(name)
}

/// Whether a short file names the crawler in this way.
fn names_with_more(file: &[u8], name: &[u8]) -> bool {
    let mut lines = file.split(|octet| *octet == b'\r' || *octet == b'\n');
    let names = |line| name_with_more(line).is_some_and(|found| found.eq_ignore_ascii_case(name));
    file.len() < 100_000 && lines.any(names)
}

/// All refusals and all sorts of answers are well represented.
#[test]
fn many_generated_decisions() {
    let cases = generator::decide_cases(SEED, DECISIONS)
        .chain(generator::derived_decide_cases(SEED, DECISIONS))
        .chain(generator::long_decide_cases(SEED, LONG_DECISIONS));
    let mut seen: BTreeMap<String, usize> = BTreeMap::new();
    let (mut unread, mut dear) = (0, 0);
    let mut by_star = [0; 2];
    let mut with_more = 0;
    for case in cases {
        let decision = check_decide(&case.file, &case.name, &case.path);
        *seen.entry(sort(&decision)).or_default() += 1;
        if decision.line > 0 && case.file[decision.place] == b'*' {
            by_star[usize::from(decision.disallow)] += 1;
        }
        with_more += usize::from(names_with_more(&case.file, &case.name));
        unread += usize::from(decision.unread > 0);
        dear += usize::from(decision.compared > case.path.len());
    }
    println!("{seen:?}, {unread} with unread lines, {dear} compared more than the path's octets");
    println!("allow and disallow by a pattern that begins with a star: {by_star:?}");
    println!("something behind the crawler's name in an agent line: {with_more}");
    let questions: usize = seen.values().sum();
    assert!(questions >= 200_000, "{questions} questions");
    for (sort, least) in [
        ("allow by no rule", 50_000),
        ("allow by a rule", 50_000),
        ("disallow", 50_000),
        ("refusal 1", 100),
        ("refusal 2", 5_000),
        ("refusal 3", 2_000),
        ("refusal 4", 2_000),
        ("refusal 5", 2_000),
    ] {
        let count = seen.get(sort).copied().unwrap_or(0);
        assert!(count >= least, "{sort}: {count}, less than {least}");
    }
    assert!(unread > 50_000 && dear > 10_000, "{unread}, {dear}");
    assert!(by_star.iter().all(|count| *count > 5_000), "{by_star:?}");
    assert!(with_more > 40_000, "{with_more}");
}

/// Every kind and every refusal of a short line is among them, many patterns
/// that begin with a star, and many names with something behind them.
#[test]
fn many_generated_lines() {
    let mut seen = BTreeSet::new();
    let mut star_first = [0; 2];
    let mut with_more = 0;
    for case in generator::line_cases(SEED, LINES) {
        let answer = check_line(&case.line);
        seen.insert((answer.refusal, answer.kind));
        if answer.kind > 5 && answer.length > 0 && case.line[answer.place] == b'*' {
            star_first[usize::from([7, 10].contains(&answer.kind))] += 1;
        }
        with_more += usize::from(name_with_more(&case.line).is_some());
    }
    println!("unreadable and readable patterns that begin with a star: {star_first:?}");
    assert!(
        star_first[0] > 500 && star_first[1] > 5_000,
        "{star_first:?}"
    );
    println!("names with something behind them: {with_more}");
    assert!(with_more > 5_000, "{with_more}");
    let mut expected: BTreeSet<_> = (1..=11).map(|kind| (0, kind)).collect();
    expected.insert((9, 0));
    assert_eq!(seen, expected, "refusals and kinds among the lines");
}
