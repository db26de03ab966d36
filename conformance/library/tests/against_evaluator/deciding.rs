//! One question for a decision, the library's answer whole, and the evaluator's
//! beside it.

use evaluator::{Decision, LineKind, RFC9309};

use crate::ask::{exact, shown};

/// The library's seven numbers for a dialect, a file, a name and a path, where
/// they stand.
pub fn numbers_in(dialect: usize, file: &[u8], name: &[u8], path: &[u8]) -> Decision {
    let disallow = library::decide_disallow(dialect, file, name, path);
    let message = || question_shown(file, name, path);
    assert!(disallow <= 1, "disallow {disallow}, {}", message());
    Decision {
        refusal: library::decide_refusal(dialect, file, name, path),
        disallow: disallow == 1,
        line: library::decide_line(dialect, file, name, path),
        place: library::decide_place(dialect, file, name, path),
        length: library::decide_length(dialect, file, name, path),
        unread: library::decide_unread(dialect, file, name, path),
        compared: library::decide_compared(dialect, file, name, path),
    }
}

/// The same in the RFC's dialect.
pub fn decide_in_place(file: &[u8], name: &[u8], path: &[u8]) -> Decision {
    numbers_in(RFC9309, file, name, path)
}

/// A question for a message.
pub fn question_shown(file: &[u8], name: &[u8], path: &[u8]) -> String {
    let (file, name, path) = (shown(file), shown(name), shown(path));
    format!("file {file}, name {name} and path {path}")
}

/// What the library decides.
fn decide_in(dialect: usize, file: &[u8], name: &[u8], path: &[u8]) -> Decision {
    let given = [exact(file), exact(name), exact(path)];
    let answer = numbers_in(dialect, &given[0], &given[1], &given[2]);
    assert!(
        *given[0] == *file && *given[1] == *name && *given[2] == *path,
        "changed: {}",
        question_shown(file, name, path)
    );
    answer
}

/// The decision is the evaluator's, in the RFC's dialect.
pub fn check_decide(file: &[u8], name: &[u8], path: &[u8]) -> Decision {
    check_decide_in(RFC9309, file, name, path)
}

/// The decision is the evaluator's, and its octets are those of its line;
/// gives it back.
pub fn check_decide_in(dialect: usize, file: &[u8], name: &[u8], path: &[u8]) -> Decision {
    let answer = decide_in(dialect, file, name, path);
    let expected = evaluator::decide_in(dialect, file, name, path);
    assert_eq!(
        answer,
        expected,
        "library and evaluator in dialect {dialect} on {}",
        question_shown(file, name, path)
    );
    check_deciding_octets(file, &answer);
    answer
}

/// "deciding line (0 if no rule decided), place and length of that rule's raw
/// pattern in the file (0 and 0 if none)": the octets stand on the line that
/// is named, counted by its endings, and are a readable pattern of the
/// decision's side.
fn check_deciding_octets(file: &[u8], answer: &Decision) {
    let (start, end) = (answer.place, answer.place + answer.length);
    if answer.line == 0 {
        assert_eq!((start, end), (0, 0), "no line, but octets: {answer:?}");
        return;
    }
    let is_ending = |octet: &u8| *octet == b'\r' || *octet == b'\n';
    let line_start = file[..start].iter().rposition(is_ending);
    let line_start = line_start.map_or(0, |ending| ending + 1);
    let ending = file[start..].iter().position(is_ending);
    let line_end = ending.map_or(file.len(), |ahead| start + ahead);
    let number = 1 + endings(&file[..line_start]);
    assert_eq!(answer.line, number, "the octets' line, {}", shown(file));
    let mark = b"\xEF\xBB\xBF";
    let marked = line_start == 0 && file.starts_with(mark);
    let text_start = line_start + if marked { mark.len() } else { 0 };
    let line = evaluator::line_kind(&file[text_start..line_end]);
    let kind = if answer.disallow { 10 } else { 7 };
    let expected = LineKind {
        refusal: 0,
        kind,
        place: start - text_start,
        length: end - start,
    };
    assert_eq!(line, expected, "line {number} of {}", shown(file));
}

/// "A line ends at CR LF (one ending), CR or LF".
pub fn endings(text: &[u8]) -> usize {
    let feeds = text.iter().filter(|octet| **octet == b'\n').count();
    let returns = text.iter().filter(|octet| **octet == b'\r').count();
    let both = text.windows(2).filter(|pair| pair == b"\r\n").count();
    feeds + returns - both
}

/// Library and evaluator give this decision.
pub fn check_decision(question: (&[u8], &[u8], &[u8]), expected: Decision) {
    let (file, name, path) = question;
    let answer = check_decide(file, name, path);
    assert_eq!(answer, expected, "{}", question_shown(file, name, path));
}

/// "A refused decision holds its number, disallow, and zeros."
pub fn refused(refusal: usize) -> Decision {
    Decision {
        refusal,
        disallow: true,
        line: 0,
        place: 0,
        length: 0,
        unread: 0,
        compared: 0,
    }
}

/// Library and evaluator refuse, in the RFC's dialect.
pub fn check_refused_decision(file: &[u8], name: &[u8], path: &[u8], refusal: usize) {
    check_decision((file, name, path), refused(refusal));
}

/// An answered decision by no rule: allow.
pub fn check_no_rule(file: &[u8], name: &[u8], path: &[u8], unread: usize, compared: usize) {
    let expected = Decision {
        refusal: 0,
        disallow: false,
        line: 0,
        place: 0,
        length: 0,
        unread,
        compared,
    };
    check_decision((file, name, path), expected);
}
