//! Walks with counts worked out by hand from document 01's sentences.

use examples::{walk_rows, WalkRow};

use crate::ask::matched;

/// What library and evaluator answer, if one of them doesn't answer what is
/// worked out.
fn difference(row: &WalkRow) -> Option<String> {
    let expected = row.expected;
    let library = matched(&row.pattern, &row.path);
    let evaluator = evaluator::match_pattern(&row.pattern, &row.path);
    (library != expected || evaluator != expected).then(|| {
        format!(
            "{row}\n  worked out: {expected:?}\n  library:    {library:?}\n  evaluator:  {evaluator:?}"
        )
    })
}

#[test]
fn every_walk_is_answered_as_worked_out() {
    let wrong: Vec<String> = walk_rows().iter().filter_map(difference).collect();
    assert!(wrong.is_empty(), "{}", wrong.join("\n"));
}
