//! An evaluator of robots.txt for checking another one.
//!
//! It is written from the papers alone, for clearness and not for speed.
//! Whatever it works out twice, it compares: a walk's match with the
//! fillings' match, in the draft's dialect with a comparison of beginnings too,
//! a count with its bound, a decision with its definition. A difference is a
//! panic.

mod batch;
mod decision;
mod dialect;
mod filling;
mod first;
mod groups;
mod heaviest;
mod lines;
mod matching;
mod normal;
mod refusal;
mod utf8;
mod walk;

pub use batch::batch;

use decision::Answer;
use dialect::Dialect;
use lines::Kind;
use matching::Target;
use normal::Path;
use refusal::Refusal;

/// A decision. A refused one "holds its number, disallow, and zeros".
#[derive(Debug, Clone, Copy, PartialEq, Eq)]
pub struct Decision {
    /// 0 if answered.
    pub refusal: usize,
    pub disallow: bool,
    /// The deciding line, counted from 1; 0 if no rule decided.
    pub line: usize,
    /// Place of the deciding rule's raw pattern in the file, from 0.
    pub place: usize,
    /// Length of that raw pattern.
    pub length: usize,
    /// Unreadable agent and rule lines in the whole file.
    pub unread: usize,
    /// Pairs of octets compared by the walks.
    pub compared: usize,
}

/// A match. A refused one "is "no" with count 0".
#[derive(Debug, Clone, Copy, PartialEq, Eq)]
pub struct Matched {
    pub refusal: usize,
    pub found: bool,
    pub compared: usize,
}

/// A normalising. A refused one "writes nothing and reports 0".
#[derive(Debug, Clone, Copy, PartialEq, Eq)]
pub struct Normalised {
    pub refusal: usize,
    pub written: usize,
}

/// The kind of a line. The numbers: 0 refused, 1 blank, 2 noise, 3 other,
/// 4 agent readable, 5 agent unreadable, 6 allow empty, 7 allow readable,
/// 8 allow unreadable, 9 disallow empty, 10 disallow readable, 11 disallow
/// unreadable.
#[derive(Debug, Clone, Copy, PartialEq, Eq)]
pub struct LineKind {
    pub refusal: usize,
    pub kind: usize,
    pub place: usize,
    pub length: usize,
}

/// The numbers of the dialects (document 02, M-113).
pub const RFC9309: usize = 0;
pub const DRAFT1996: usize = 1;

/// Decides whether the crawler `name` may fetch `path` under `file`, by the RFC.
/// Refusals 1 to 5.
pub fn decide(file: &[u8], name: &[u8], path: &[u8]) -> Decision {
    decide_in(RFC9309, file, name, path)
}

/// The same in the dialect of this number. Refusal 20, then 1 to 5.
pub fn decide_in(dialect: usize, file: &[u8], name: &[u8], path: &[u8]) -> Decision {
    match unrefused_decision(dialect, file, name, path) {
        Ok(answer) => answered(&answer),
        Err(refusal) => refused(refusal),
    }
}

/// The bound of a decision's compared count: the summed weights of the readable
/// rules that apply, in the draft's dialect of those up to the deciding one,
/// times the octets of the normalised path. 0 if refused, and for /robots.txt.
pub fn compared_bound(dialect: usize, file: &[u8], name: &[u8], path: &[u8]) -> usize {
    unrefused_decision(dialect, file, name, path).map_or(0, |answer| answer.bound)
}

fn unrefused_decision(
    dialect: usize,
    file: &[u8],
    name: &[u8],
    path: &[u8],
) -> Result<Answer, Refusal> {
    let dialect = Dialect::numbered(dialect)?;
    refusal::length(file)?;
    refusal::name(name)?;
    refusal::path(path)?;
    Ok(decision::answer(dialect, file, name, path))
}

fn answered(answer: &Answer) -> Decision {
    let pattern = answer.pattern();
    Decision {
        refusal: 0,
        disallow: answer.disallow,
        line: answer.line(),
        place: pattern.place.0,
        length: pattern.length,
        unread: answer.unread,
        compared: answer.compared,
    }
}

fn refused(refusal: Refusal) -> Decision {
    Decision {
        refusal: refusal.number(),
        disallow: true,
        line: 0,
        place: 0,
        length: 0,
        unread: 0,
        compared: 0,
    }
}

/// Matches one raw pattern against one raw path. Refusals 1, 3, 4, 5, 8.
/// "/robots.txt has no special standing here."
pub fn match_pattern(pattern: &[u8], path: &[u8]) -> Matched {
    match unrefused_match(pattern, path) {
        Ok(walk) => Matched {
            refusal: 0,
            found: walk.found,
            compared: walk.compared,
        },
        Err(refusal) => Matched {
            refusal: refusal.number(),
            found: false,
            compared: 0,
        },
    }
}

fn unrefused_match(pattern: &[u8], path: &[u8]) -> Result<walk::Walk, Refusal> {
    refusal::length(pattern)?;
    refusal::path(path)?;
    refusal::pattern(lines::is_readable_pattern(pattern))?;
    let target = Target::new(Path::new(path));
    Ok(target.walk_checked(Dialect::Rfc9309, pattern).walk)
}

/// Normalises a path into the front of `buffer`; the rest stays. Refusals 3
/// to 6.
pub fn normalise(path: &[u8], buffer: &mut [u8]) -> Normalised {
    match unrefused_normalising(path, buffer) {
        Ok(written) => Normalised {
            refusal: 0,
            written,
        },
        Err(refusal) => Normalised {
            refusal: refusal.number(),
            written: 0,
        },
    }
}

fn unrefused_normalising(path: &[u8], buffer: &mut [u8]) -> Result<usize, Refusal> {
    refusal::path(path)?;
    let normal = Path::new(path);
    let octets = normal.octets();
    refusal::room(octets, buffer.len())?;
    buffer[..octets.len()].copy_from_slice(octets);
    Ok(octets.len())
}

/// Tells the kind of one line, given without its line ending. Refusals 1
/// and 9. "No leading mark is skipped here."
pub fn line_kind(line: &[u8]) -> LineKind {
    match unrefused_kind(line) {
        Ok(kind) => LineKind {
            refusal: 0,
            kind: kind.number(),
            place: kind.span().place.0,
            length: kind.span().length,
        },
        Err(refusal) => LineKind {
            refusal: refusal.number(),
            kind: 0,
            place: 0,
            length: 0,
        },
    }
}

fn unrefused_kind(line: &[u8]) -> Result<Kind, Refusal> {
    refusal::length(line)?;
    refusal::line_ending(line)?;
    Ok(lines::kind(line))
}

/// The program's whole output for an input, by the RFC. Refusal 7, then
/// decide's.
pub fn program(input: &[u8]) -> Vec<u8> {
    let output = match unrefused_output(input) {
        Ok(output) => output,
        Err(refusal) => format!("refused {}\n", refusal.number()),
    };
    output.into_bytes()
}

fn unrefused_output(input: &[u8]) -> Result<String, Refusal> {
    refusal::input(input)?;
    let (name, rest) = first_part(input);
    let (path, file) = first_part(rest);
    let answer = unrefused_decision(RFC9309, file, name, path)?;
    let word = if answer.disallow { "disallow" } else { "allow" };
    Ok(format!(
        "{word} line {} unread {} compared {}\n",
        answer.line(),
        answer.unread,
        answer.compared
    ))
}

/// The part before the first LF, and what follows it. "A part that ends with
/// the input needs no LF; a missing part is empty."
fn first_part(input: &[u8]) -> (&[u8], &[u8]) {
    match input.iter().position(|octet| *octet == b'\n') {
        Some(at) => (&input[..at], &input[at + 1..]),
        None => (input, &[]),
    }
}
