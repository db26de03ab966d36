//! Normalising, for a path and for a pattern.

use crate::dialect::Dialect;

/// What a normalised pattern is made of.
#[derive(Debug, Clone, Copy, PartialEq, Eq)]
pub(crate) enum Piece {
    Octet(u8),
    Star,
}

/// A normalised path.
#[derive(Debug, Clone, PartialEq, Eq)]
pub(crate) struct Path(Vec<u8>);

/// A normalised pattern.
#[derive(Debug, Clone, PartialEq, Eq)]
pub(crate) struct Pattern {
    pieces: Vec<Piece>,
    end_mark: bool,
}

/// A pattern's weight; it decides between rules that match.
#[derive(Debug, Clone, Copy, PartialEq, Eq, PartialOrd, Ord)]
pub(crate) struct Weight(pub(crate) usize);

impl Path {
    pub(crate) fn new(raw: &[u8]) -> Path {
        let mut normal = Vec::new();
        each_piece(raw, |piece| match piece {
            Piece::Octet(octet) => normal.push(octet),
            // "in a path, "*" becomes %2A"
            Piece::Star => normal.extend(escaped(b'*')),
        });
        Path(normal)
    }

    pub(crate) fn octets(&self) -> &[u8] {
        &self.0
    }

    /// "/robots.txt?x isn't that path."
    pub(crate) fn is_robots_txt(&self) -> bool {
        self.0 == b"/robots.txt"
    }
}

impl Pattern {
    pub(crate) fn new(dialect: Dialect, raw: &[u8]) -> Pattern {
        match dialect {
            Dialect::Rfc9309 => Pattern::of_rfc(raw),
            Dialect::Draft1996 => Pattern::of_draft(raw),
        }
    }

    fn of_rfc(raw: &[u8]) -> Pattern {
        // "a "$" as its last raw octet is the end mark, and the part before
        // it is normalised by itself"
        let (part, end_mark) = match raw {
            [part @ .., b'$'] => (part, true),
            _ => (raw, false),
        };
        let mut pieces = Vec::new();
        each_piece(part, |piece| pieces.push(piece));
        Pattern { pieces, end_mark }
    }

    /// "star and dollar in a pattern are plain octets, normalised as in a path",
    /// "and a pattern is one run without stars" (M-113)
    fn of_draft(raw: &[u8]) -> Pattern {
        let Path(octets) = Path::new(raw);
        Pattern {
            pieces: octets.into_iter().map(Piece::Octet).collect(),
            end_mark: false,
        }
    }

    pub(crate) fn pieces(&self) -> &[Piece] {
        &self.pieces
    }

    pub(crate) fn has_end_mark(&self) -> bool {
        self.end_mark
    }

    /// "its normalised octets, with one for each star and one for the end
    /// mark"
    pub(crate) fn weight(&self) -> Weight {
        Weight(self.pieces.len() + usize::from(self.end_mark))
    }

    /// "cut it at its stars into runs, some perhaps empty"
    pub(crate) fn runs(&self) -> Vec<Vec<u8>> {
        let mut runs = vec![Vec::new()];
        for piece in &self.pieces {
            match (*piece, runs.last_mut()) {
                (Piece::Octet(octet), Some(run)) => run.push(octet),
                _ => runs.push(Vec::new()),
            }
        }
        runs
    }
}

/// Hands on the normalised pieces of `raw`, left to right.
fn each_piece(raw: &[u8], mut hand_on: impl FnMut(Piece)) {
    let mut rest = raw;
    while let [first, after @ ..] = rest {
        rest = after;
        match *first {
            b'%' => match escape_meant(after) {
                // "%" and two hex digits
                Some(meant) => {
                    rest = &after[2..];
                    if is_unreserved(meant) {
                        hand_on(Piece::Octet(meant));
                    } else {
                        hand_on_escaped(meant, &mut hand_on);
                    }
                }
                // "any other "%": %25"
                None => hand_on_escaped(b'%', &mut hand_on),
            },
            b'*' => hand_on(Piece::Star),
            octet @ (0x7F.. | b'$') => hand_on_escaped(octet, &mut hand_on),
            octet => hand_on(Piece::Octet(octet)),
        }
    }
}

fn hand_on_escaped(octet: u8, hand_on: &mut impl FnMut(Piece)) {
    for part in escaped(octet) {
        hand_on(Piece::Octet(part));
    }
}

/// The octet meant by two hex digits at the front.
fn escape_meant(rest: &[u8]) -> Option<u8> {
    let high = hex_value(*rest.first()?)?;
    let low = hex_value(*rest.get(1)?)?;
    Some(high * 16 + low)
}

fn hex_value(digit: u8) -> Option<u8> {
    match digit {
        b'0'..=b'9' => Some(digit - b'0'),
        b'A'..=b'F' => Some(digit - b'A' + 10),
        b'a'..=b'f' => Some(digit - b'a' + 10),
        _ => None,
    }
}

/// "%" and two upper-case hex digits.
fn escaped(octet: u8) -> [u8; 3] {
    const DIGITS: &[u8; 16] = b"0123456789ABCDEF";
    [
        b'%',
        DIGITS[usize::from(octet / 16)],
        DIGITS[usize::from(octet % 16)],
    ]
}

/// "unreserved (A-Z a-z 0-9 - . _ ~)"
fn is_unreserved(octet: u8) -> bool {
    octet.is_ascii_alphanumeric() || matches!(octet, b'-' | b'.' | b'_' | b'~')
}
