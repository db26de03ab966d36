//! The questions of the rows of the definitions' tables: document 01's and ours.

use examples::{definition_rows, Asked};

use crate::ask;
use crate::deciding::check_decide_in;
use crate::definition_lists::check_batch_row;

/// How many questions ask the library: all but those of the program.
const QUESTIONS: usize = 314;

/// Whether the question asks the library.
fn check(asked: &Asked) -> bool {
    match asked {
        Asked::Decide {
            dialect,
            file,
            name,
            path,
            told,
        } => assert_eq!(told.of(&check_decide_in(*dialect, file, name, path)), *told),
        Asked::Line { line, expected } => assert_eq!(ask::line(line), *expected),
        Asked::Match {
            pattern,
            path,
            expected,
        } => assert_eq!(ask::matched(pattern, path), *expected),
        Asked::Normalise {
            path,
            buffer: [before, after],
            refusal,
            written,
        } => {
            let mut buffer = before.clone();
            assert_eq!(library::normalise(path, &mut buffer), *written);
            assert_eq!(library::normalise_refusal(path, before.len()), *refusal);
            assert_eq!(buffer, *after);
        }
        Asked::Batch(row) => check_batch_row(row),
        Asked::Program { .. } => return false,
    }
    true
}

#[test]
fn the_library_gives_every_row_of_the_definitions() {
    let mut questions = 0;
    for row in definition_rows() {
        println!("{}", row.place);
        questions += usize::from(check(&row.asked));
    }
    assert_eq!(questions, QUESTIONS, "questions that ask the library");
}
