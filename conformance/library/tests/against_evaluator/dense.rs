//! Files of many short lines, with agent lines and rules at every offset.

use std::collections::BTreeMap;

use evaluator::Decision;
use generator::{DecideCase, SEED};

use crate::deciding::{check_decide, decide_in_place, question_shown};

const DECISIONS: usize = 150_000;

/// One question of so many is asked inside larger memory too.
const INSIDE: usize = 3;

/// What the last line of a file could be taken to go on with.
const BEHIND: [&str; 8] = [
    "w:/",
    "nt:*\ndisallow:/",
    ":*",
    "\n",
    "\nallow:*",
    "$",
    "a",
    "\u{feff}",
];

/// The least of each sort.
const LEAST: [(&str, usize); 8] = [
    ("allow by no rule", 40_000),
    ("allow by a rule", 15_000),
    ("disallow", 30_000),
    ("refusal 1", 15),
    ("refusal 2", 2_000),
    ("refusal 3", 900),
    ("refusal 4", 400),
    ("refusal 5", 4_000),
];

/// What a decision is counted as.
pub fn sort(decision: &Decision) -> String {
    match decision {
        Decision { refusal: 1.., .. } => format!("refusal {}", decision.refusal),
        Decision { line: 0, .. } => "allow by no rule".to_string(),
        Decision { disallow: true, .. } => "disallow".to_string(),
        Decision { .. } => "allow by a rule".to_string(),
    }
}

/// The answer is the same where the file stands inside larger memory, from any
/// place of a block, behind line endings and in front of other octets.
fn check_inside(case: &DecideCase, index: usize, expected: &Decision) {
    let before = index % 64 + 1;
    let behind = BEHIND[index / 64 % BEHIND.len()].as_bytes();
    let memory = [&vec![b'\r'; before], case.file.as_slice(), behind].concat();
    let file = &memory[before..before + case.file.len()];
    let answer = decide_in_place(file, &case.name, &case.path);
    let message = || question_shown(file, &case.name, &case.path);
    assert_eq!(answer, *expected, "inside, {before}: {}", message());
}

/// All seven numbers are the evaluator's, and all refusals and all sorts of
/// answers are well represented.
#[test]
fn many_dense_files() {
    let mut seen: BTreeMap<String, usize> = BTreeMap::new();
    let (mut unread, mut late) = (0, 0);
    for (index, case) in generator::dense_decide_cases(SEED, DECISIONS).enumerate() {
        let decision = check_decide(&case.file, &case.name, &case.path);
        if index % INSIDE == 0 && case.file.len() < 10_000 {
            check_inside(&case, index, &decision);
        }
        *seen.entry(sort(&decision)).or_default() += 1;
        unread += usize::from(decision.unread > 0);
        late += usize::from(decision.line > 64);
    }
    println!("{seen:?}, {unread} with unread lines, {late} by a line past the first 64");
    assert!(seen.values().sum::<usize>() >= 100_000, "{seen:?}");
    for (sort, least) in LEAST {
        let count = seen.get(sort).copied().unwrap_or(0);
        assert!(count >= least, "{sort}: {count}, less than {least}");
    }
    assert!(unread > 40_000 && late > 7_000, "{unread}, {late}");
}
