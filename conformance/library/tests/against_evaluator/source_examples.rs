//! The examples of the sources, against the answers that are written beside
//! them.

use examples::{Expected, Question};

use crate::ask;
use crate::deciding::{check_decide_in, question_shown};
use crate::texts::MOST_NORMALISED;

/// How many rows ask for a decision in each dialect, for a normalised path, for a
/// line's kind, and for a match.
const DECIDE_ROWS: [usize; 2] = [163, 42];
const NORMALISE_ROWS: usize = 16;
const LINE_ROWS: usize = 31;
const MATCH_ROWS: usize = 89;

#[test]
fn every_example_of_a_decision() {
    let mut rows = [0; 2];
    for row in examples::all().unwrap_or_else(|fault| panic!("{fault}")) {
        let Question::Decide {
            dialect,
            file,
            name,
            path,
        } = &row.question
        else {
            continue;
        };
        let Expected::Decide(expected) = &row.expected else {
            panic!("{}: no decision is expected", row.id);
        };
        rows[*dialect] += 1;
        assert_eq!(
            check_decide_in(*dialect, file, name, path),
            *expected,
            "{}: {}",
            row.id,
            question_shown(file, name, path)
        );
    }
    assert_eq!(rows, DECIDE_ROWS, "rows that ask for a decision");
}

#[test]
fn every_example_of_normalising() {
    let mut rows = 0;
    for row in examples::all().unwrap_or_else(|fault| panic!("{fault}")) {
        let (Question::Normalise { path }, Expected::Normalise(expected)) =
            (&row.question, &row.expected)
        else {
            continue;
        };
        rows += 1;
        for room in [expected.octets.len(), MOST_NORMALISED] {
            let answer = ask::normalise(path, room);
            let message = format!("{}: {} with room {room}", row.id, ask::shown(path));
            assert_eq!(answer.refusal, expected.refusal, "{message}");
            assert!(
                answer.octets == expected.octets,
                "{message} became {}",
                ask::shown(&answer.octets)
            );
        }
    }
    assert_eq!(rows, NORMALISE_ROWS, "rows that ask for a path");
}

#[test]
fn every_example_of_a_line() {
    let mut rows = 0;
    for row in examples::all().unwrap_or_else(|fault| panic!("{fault}")) {
        let (Question::Line { line }, Expected::Line(expected)) = (&row.question, &row.expected)
        else {
            continue;
        };
        rows += 1;
        assert_eq!(
            ask::line(line),
            *expected,
            "{}: {}",
            row.id,
            ask::shown(line)
        );
    }
    assert_eq!(rows, LINE_ROWS, "rows that ask for a line");
}

#[test]
fn every_example_of_a_match() {
    let mut rows = 0;
    for row in examples::all().unwrap_or_else(|fault| panic!("{fault}")) {
        let (Question::Match { pattern, path }, Expected::Match(expected)) =
            (&row.question, &row.expected)
        else {
            continue;
        };
        rows += 1;
        assert_eq!(
            ask::matched(pattern, path),
            *expected,
            "{}: {}",
            row.id,
            ask::both_shown(pattern, path)
        );
    }
    assert_eq!(rows, MATCH_ROWS, "rows that ask for a match");
}
