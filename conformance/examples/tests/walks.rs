//! The walks worked out by hand against the evaluator.

use std::collections::BTreeSet;

use examples::{walk_rows, WalkRow};

/// How many walks there are.
const ROWS: usize = 252;

fn difference(row: &WalkRow) -> Option<String> {
    let expected = row.expected;
    let got = evaluator::match_pattern(&row.pattern, &row.path);
    (got != expected).then(|| format!("{row}\n  worked out: {expected:?}\n  evaluator:  {got:?}"))
}

#[test]
fn every_walk_is_answered_as_worked_out() {
    let wrong: Vec<String> = walk_rows().iter().filter_map(difference).collect();
    assert!(wrong.is_empty(), "{}", wrong.join("\n"));
}

#[test]
fn each_walk_stands_once() {
    let rows = walk_rows();
    assert_eq!(rows.len(), ROWS);
    let mut seen = BTreeSet::new();
    for row in &rows {
        assert!(seen.insert((&row.pattern, &row.path)), "twice: {row}");
    }
}

#[test]
fn eleven_stars_are_eleven() {
    let mut rows = walk_rows();
    rows.retain(|row| row.group == "eleven stars");
    assert_eq!(rows.len(), 8);
    for row in rows {
        let stars = row.pattern.iter().filter(|octet| **octet == b'*').count();
        assert_eq!(stars, 11, "{row}");
    }
}
