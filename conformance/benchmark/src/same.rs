//! Library, plain C and evaluator give the same answers.

use evaluator::RFC9309;

use crate::batch::{self, Answers};
use crate::lists::{List, PATHS};
use crate::passes::MOST;
use crate::rows::{Asked, Row};

/// All numbers of each question of the row are the same, and none is refused.
pub fn check(row: &Row) {
    match &row.asked {
        Asked::Decide(dialect, file, pairs) => {
            for (name, path) in pairs {
                decision(&row.name, *dialect, file, name, path);
            }
        }
        Asked::Unread(file, pairs) => {
            for (name, path) in pairs {
                decision(&row.name, RFC9309, file, name, path);
            }
        }
        Asked::Match(pairs) => {
            for (pattern, path) in pairs {
                matched(&row.name, pattern, path);
            }
        }
        Asked::Normalise(paths) => {
            for path in paths {
                normalised(&row.name, path);
            }
        }
    }
}

/// The seven numbers of a decision.
pub fn decision(row: &str, dialect: usize, file: &[u8], name: &[u8], path: &[u8]) {
    let message = format!("{row}: {}", path.escape_ascii());
    let expected = evaluator::decide_in(dialect, file, name, path);
    let expected = plain::Decision {
        refusal: 0,
        disallow: usize::from(expected.disallow),
        line: expected.line,
        place: expected.place,
        length: expected.length,
        unread: expected.unread,
        compared: expected.compared,
    };
    let library = plain::Decision {
        refusal: library::decide_refusal(dialect, file, name, path),
        disallow: library::decide_disallow(dialect, file, name, path),
        line: library::decide_line(dialect, file, name, path),
        place: library::decide_place(dialect, file, name, path),
        length: library::decide_length(dialect, file, name, path),
        unread: library::decide_unread(dialect, file, name, path),
        compared: library::decide_compared(dialect, file, name, path),
    };
    assert_eq!(library, expected, "library, {message}");
    let plain_c = plain::decide(dialect, file, name, path);
    assert_eq!(plain_c, expected, "plain C, {message}");
}

/// The three numbers of each path of a list, in one call, and the two that the
/// library is asked for path by path. None is refused.
pub fn list(list: &List) {
    let mut expected: Answers = (0, [[0; PATHS]; 3]);
    let [_, sides, lines] = &mut expected.1;
    for (at, path) in list.each().enumerate() {
        let (dialect, file, name) = (list.dialect, &list.file, list.crawler);
        let alone = evaluator::decide_in(dialect, file, name, path);
        assert_eq!(alone.refusal, 0, "{}: {}", list.name, path.escape_ascii());
        (sides[at], lines[at]) = (usize::from(alone.disallow), alone.line);
        let library = (
            library::decide_disallow(dialect, file, name, path),
            library::decide_line(dialect, file, name, path),
        );
        assert_eq!(library, (sides[at], lines[at]), "library, {}", list.name);
    }
    let library = batch::ask(list, library::batch);
    assert!(library == expected, "library, {}: one call", list.name);
    let plain_c = batch::ask(list, plain::batch);
    assert!(plain_c == expected, "plain C, {}: one call", list.name);
}

/// The three numbers of a match.
fn matched(row: &str, pattern: &[u8], path: &[u8]) {
    let message = format!(
        "{row}: {} and {}",
        pattern.escape_ascii(),
        path.escape_ascii()
    );
    let expected = evaluator::match_pattern(pattern, path);
    let expected = plain::Matched {
        refusal: 0,
        found: usize::from(expected.found),
        compared: expected.compared,
    };
    let library = plain::Matched {
        refusal: library::match_refusal(pattern, path),
        found: library::match_found(pattern, path),
        compared: library::match_compared(pattern, path),
    };
    assert_eq!(library, expected, "library, {message}");
    let plain_c = plain::match_pattern(pattern, path);
    assert_eq!(plain_c, expected, "plain C, {message}");
}

/// The octets written.
fn normalised(row: &str, path: &[u8]) {
    let message = format!("{row}: {}", path.escape_ascii());
    let mut buffers = [[0; MOST]; 3];
    let written = [
        library::normalise(path, &mut buffers[0]),
        plain::normalise(path, &mut buffers[1]).written,
        evaluator::normalise(path, &mut buffers[2]).written,
    ];
    assert!(written[2] > 0, "refused, {message}");
    assert!(
        written[0] == written[2] && buffers[0] == buffers[2],
        "library, {message}"
    );
    assert!(
        written[1] == written[2] && buffers[1] == buffers[2],
        "plain C, {message}"
    );
}
