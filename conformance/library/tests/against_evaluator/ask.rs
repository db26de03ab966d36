//! One question to the library, its answer whole, and the evaluator's beside
//! it.

use evaluator::{LineKind, Matched};

use crate::texts::MOST_NORMALISED;

/// Memory of exactly these octets, so that a read past the last one is a read
/// past an allocation.
pub fn exact(octets: &[u8]) -> Box<[u8]> {
    Box::from(octets)
}

/// The octets of a buffer before it is lent. They vary, and each is 0x80 or
/// more, which no normalised path holds.
pub fn filling(room: usize) -> Box<[u8]> {
    (0..room).map(|at| 0x80 | (at % 127) as u8).collect()
}

/// An input for a message: its beginning, if it is long.
pub fn shown(octets: &[u8]) -> String {
    const MOST: usize = 2_100;
    let front = &octets[..octets.len().min(MOST)];
    let dots = if octets.len() > MOST { " .." } else { "" };
    format!(
        "\"{}\"{dots} ({} octets)",
        front.escape_ascii(),
        octets.len()
    )
}

/// Asks about these two parts with each octet between them.
pub fn each_between(before: &[u8], after: &[u8], check: impl Fn(&[u8])) {
    for octet in 0..=255 {
        check(&[before, &[octet], after].concat());
    }
}

/// Asks about these two parts with each two octets between them.
pub fn each_two_between(before: &[u8], after: &[u8], check: impl Fn(&[u8])) {
    each_between(before, b"", |front| each_between(front, after, &check));
}

/// What the library says of a line.
pub fn line(line: &[u8]) -> LineKind {
    let given = exact(line);
    let answer = LineKind {
        refusal: library::line_refusal(&given),
        kind: library::line_kind(&given),
        place: library::line_place(&given),
        length: library::line_length(&given),
    };
    assert!(
        *given == *line,
        "the line has been changed: {}",
        shown(line)
    );
    answer
}

/// The line's answers are the evaluator's; gives them back.
pub fn check_line(octets: &[u8]) -> LineKind {
    let answer = line(octets);
    let expected = evaluator::line_kind(octets);
    assert_eq!(
        answer,
        expected,
        "library and evaluator on line {}",
        shown(octets)
    );
    answer
}

/// What the library makes of a path and a buffer of `room` octets.
#[derive(Debug, PartialEq, Eq)]
pub struct Normalised {
    pub refusal: usize,
    /// The octets written.
    pub octets: Vec<u8>,
}

/// Normalises by the library. Whatever the path, the refusal's number and the
/// octets written go together, and the rest of the buffer stays.
pub fn normalise(path: &[u8], room: usize) -> Normalised {
    let message = || format!("path {} with room {room}", shown(path));
    let given = exact(path);
    let mut buffer = filling(room);
    let written = library::normalise(&given, &mut buffer);
    let refusal = library::normalise_refusal(&given, room);
    assert!(*given == *path, "changed: {}", message());
    assert!(written <= room, "{written} written, {}", message());
    assert_eq!(
        written == 0,
        refusal != 0,
        "{written} written, refusal {refusal}, {}",
        message()
    );
    let tail = written..;
    assert!(
        buffer[tail.clone()] == filling(room)[tail],
        "the rest of the buffer has been changed, {}",
        message()
    );
    let octets = buffer[..written].to_vec();
    Normalised { refusal, octets }
}

/// The answer at this room is the evaluator's; gives its refusal.
pub fn check_room(path: &[u8], room: usize) -> usize {
    let answer = normalise(path, room);
    let mut buffer = filling(room);
    let expected = evaluator::normalise(path, &mut buffer);
    let expected = Normalised {
        refusal: expected.refusal,
        octets: buffer[..expected.written].to_vec(),
    };
    assert_eq!(
        answer,
        expected,
        "library and evaluator on path {} with room {room}",
        shown(path)
    );
    answer.refusal
}

/// The same at no room, one less than is needed, just enough, one more and
/// much more.
pub fn check_path(path: &[u8]) {
    let needed = normal_length(path);
    for room in [0, needed.saturating_sub(1), needed, needed + 1, needed + 70] {
        check_room(path, room);
    }
}

/// The octets that the evaluator writes into a large buffer.
fn normal_length(path: &[u8]) -> usize {
    let mut buffer = [0; MOST_NORMALISED];
    evaluator::normalise(path, &mut buffer).written
}

/// The library's three numbers for a pattern and a path, where they stand.
pub fn match_in_place(pattern: &[u8], path: &[u8]) -> Matched {
    let found = library::match_found(pattern, path);
    assert!(found <= 1, "found {found}, {}", both_shown(pattern, path));
    Matched {
        refusal: library::match_refusal(pattern, path),
        found: found == 1,
        compared: library::match_compared(pattern, path),
    }
}

/// A pattern and a path for a message.
pub fn both_shown(pattern: &[u8], path: &[u8]) -> String {
    format!("pattern {} and path {}", shown(pattern), shown(path))
}

/// What the library says of a pattern and a path.
pub fn matched(pattern: &[u8], path: &[u8]) -> Matched {
    let (given_pattern, given_path) = (exact(pattern), exact(path));
    let answer = match_in_place(&given_pattern, &given_path);
    assert!(
        *given_pattern == *pattern && *given_path == *path,
        "changed: {}",
        both_shown(pattern, path)
    );
    answer
}

/// The match is the evaluator's; gives it back.
pub fn check_match(pattern: &[u8], path: &[u8]) -> Matched {
    let answer = matched(pattern, path);
    let expected = evaluator::match_pattern(pattern, path);
    assert_eq!(
        answer,
        expected,
        "library and evaluator on {}",
        both_shown(pattern, path)
    );
    answer
}

/// Library and evaluator answer this.
fn check_answer(pattern: &[u8], path: &[u8], expected: Matched) {
    let answer = check_match(pattern, path);
    assert_eq!(answer, expected, "{}", both_shown(pattern, path));
}

/// Library and evaluator give this match.
pub fn check_walk(pattern: &[u8], path: &[u8], found: bool, compared: usize) {
    let expected = Matched {
        refusal: 0,
        found,
        compared,
    };
    check_answer(pattern, path, expected);
}

/// Library and evaluator refuse: "A refused match is "no" with count 0".
pub fn check_refused_match(pattern: &[u8], path: &[u8], refusal: usize) {
    let expected = Matched {
        refusal,
        found: false,
        compared: 0,
    };
    check_answer(pattern, path, expected);
}
