//! From octets to lines, and the kind of each line.

use crate::refusal::is_name_octet;
use crate::utf8;

/// The number of a line, counted from 1.
#[derive(Debug, Clone, Copy, PartialEq, Eq, PartialOrd, Ord)]
pub(crate) struct LineNumber(pub(crate) usize);

/// The place of an octet, counted from 0.
#[derive(Debug, Clone, Copy, PartialEq, Eq)]
pub(crate) struct Place(pub(crate) usize);

/// A stretch of octets; an empty one lies at place 0.
#[derive(Debug, Clone, Copy, PartialEq, Eq)]
pub(crate) struct Span {
    pub(crate) place: Place,
    pub(crate) length: usize,
}

impl Span {
    /// "0 and 0 if that is empty, and for every other kind".
    pub(crate) const NOTHING: Span = Span {
        place: Place(0),
        length: 0,
    };

    fn between(start: usize, end: usize) -> Span {
        if start == end {
            return Span::NOTHING;
        }
        Span {
            place: Place(start),
            length: end - start,
        }
    }

    /// The same stretch, seen from `start` octets earlier.
    fn moved(self, start: usize) -> Span {
        if self.length == 0 {
            return Span::NOTHING;
        }
        Span {
            place: Place(self.place.0 + start),
            ..self
        }
    }

    pub(crate) fn of(self, octets: &[u8]) -> &[u8] {
        &octets[self.place.0..self.place.0 + self.length]
    }
}

#[derive(Debug, Clone, Copy, PartialEq, Eq)]
pub(crate) enum Side {
    Allow,
    Disallow,
}

#[derive(Debug, Clone, Copy, PartialEq, Eq)]
pub(crate) enum PatternState {
    Empty,
    Readable,
    Unreadable,
}

#[derive(Debug, Clone, Copy, PartialEq, Eq)]
pub(crate) enum Kind {
    Blank,
    Noise,
    Other,
    Agent {
        readable: bool,
        value: Span,
    },
    Rule {
        side: Side,
        state: PatternState,
        pattern: Span,
    },
}

impl Kind {
    /// The number of the kind; 0 is left for a refused line.
    pub(crate) fn number(self) -> usize {
        match self {
            Kind::Blank => 1,
            Kind::Noise => 2,
            Kind::Other => 3,
            Kind::Agent { readable: true, .. } => 4,
            Kind::Agent { .. } => 5,
            Kind::Rule { side, state, .. } => {
                let first = match side {
                    Side::Allow => 6,
                    Side::Disallow => 9,
                };
                first
                    + match state {
                        PatternState::Empty => 0,
                        PatternState::Readable => 1,
                        PatternState::Unreadable => 2,
                    }
            }
        }
    }

    pub(crate) fn span(self) -> Span {
        match self {
            Kind::Agent { value, .. } => value,
            Kind::Rule { pattern, .. } => pattern,
            Kind::Blank | Kind::Noise | Kind::Other => Span::NOTHING,
        }
    }

    /// "The unread count is the number of unreadable agent and rule lines".
    pub(crate) fn is_unread(self) -> bool {
        matches!(
            self,
            Kind::Agent {
                readable: false,
                ..
            } | Kind::Rule {
                state: PatternState::Unreadable,
                ..
            }
        )
    }

    fn moved(self, start: usize) -> Kind {
        match self {
            Kind::Agent { readable, value } => Kind::Agent {
                readable,
                value: value.moved(start),
            },
            Kind::Rule {
                side,
                state,
                pattern,
            } => Kind::Rule {
                side,
                state,
                pattern: pattern.moved(start),
            },
            Kind::Blank | Kind::Noise | Kind::Other => self,
        }
    }
}

/// A line of a file; its spans are places in the file.
#[derive(Debug, Clone, Copy)]
pub(crate) struct Line {
    pub(crate) number: LineNumber,
    pub(crate) kind: Kind,
}

/// All lines of a file, in order.
pub(crate) fn lines(file: &[u8]) -> Vec<Line> {
    let mut found = Vec::new();
    // "If the file starts with EF BB BF, those three octets are skipped but
    // keep their places".
    let mut start = if file.starts_with(&[0xEF, 0xBB, 0xBF]) {
        3
    } else {
        0
    };
    // "A file that ends in a line ending has no further line".
    while start < file.len() {
        let end = end_of_line(file, start);
        found.push(Line {
            number: LineNumber(found.len() + 1),
            kind: kind(&file[start..end]).moved(start),
        });
        start = end + ending_length(&file[end..]);
    }
    found
}

fn end_of_line(file: &[u8], start: usize) -> usize {
    file[start..]
        .iter()
        .position(|o| *o == b'\r' || *o == b'\n')
        .map_or(file.len(), |ahead| start + ahead)
}

/// "A line ends at CR LF (one ending), CR or LF, or at the end of the file."
fn ending_length(rest: &[u8]) -> usize {
    match rest {
        [] => 0,
        [b'\r', b'\n', ..] => 2,
        _ => 1,
    }
}

/// The kind of a line that is given without its line ending.
pub(crate) fn kind(line: &[u8]) -> Kind {
    // "everything from the first "#" on is comment and isn't examined".
    let comment = line.iter().position(|o| *o == b'#').unwrap_or(line.len());
    let (start, end) = trimmed(line, 0, comment);
    if start == end {
        return Kind::Blank;
    }
    let Some(colon) = (start..end).find(|at| line[*at] == b':') else {
        return Kind::Noise;
    };
    let (field_start, field_end) = trimmed(line, start, colon);
    let (value_start, value_end) = trimmed(line, colon + 1, end);
    let value = Span::between(value_start, value_end);
    let field = line[field_start..field_end].to_ascii_lowercase();
    match field.as_slice() {
        b"user-agent" => Kind::Agent {
            readable: !agent_name(value.of(line)).is_empty(),
            value,
        },
        b"allow" => rule(Side::Allow, line, value),
        b"disallow" => rule(Side::Disallow, line, value),
        _ => Kind::Other,
    }
}

/// "Spaces and tabs at both ends are dropped."
fn trimmed(line: &[u8], mut start: usize, mut end: usize) -> (usize, usize) {
    let is_space = |octet: u8| octet == b' ' || octet == b'\t';
    while start < end && is_space(line[start]) {
        start += 1;
    }
    while start < end && is_space(line[end - 1]) {
        end -= 1;
    }
    (start, end)
}

/// Whom an agent's value names: "The value's name is now its longest beginning
/// of A-Z a-z - _ ; the rest is ignored. It is unread exactly if that beginning
/// is empty and the value isn't exactly "*"" (document 02, M-105). Empty if
/// unread.
pub(crate) fn agent_name(value: &[u8]) -> &[u8] {
    if value == b"*" {
        return value;
    }
    let end = value.iter().position(|o| !is_name_octet(*o));
    &value[..end.unwrap_or(value.len())]
}

fn rule(side: Side, line: &[u8], pattern: Span) -> Kind {
    let octets = pattern.of(line);
    let state = if octets.is_empty() {
        PatternState::Empty
    } else if is_readable_pattern(octets) {
        PatternState::Readable
    } else {
        PatternState::Unreadable
    };
    Kind::Rule {
        side,
        state,
        pattern,
    }
}

/// "From now on a readable pattern begins with "/" or "*"" (document 02,
/// M-102), "and is well-formed by the RFC's UTF8-char-noctl rule".
pub(crate) fn is_readable_pattern(octets: &[u8]) -> bool {
    matches!(octets, [b'/' | b'*', ..]) && utf8::is_chars_noctl(octets)
}
