//! Every example of the source documents, read from the plain-text files in
//! `data`. The form of those files is told in `data/README.md`.
//!
//! Each row holds a question, what the source prints, and what document 01
//! answers. Of the evaluator only the types of its answers are used here.
//!
//! `walk_rows` gives walks of our own, worked out by hand; `definition_rows`
//! gives the questions of the rows of the definitions' tables.

mod answer;
mod definitions;
mod long_walks;
mod octets;
mod reader;
mod rows;
mod walks;

use std::fmt;

pub use definitions::{definition_rows, table_rows, Asked, BatchRow, DefinitionRow, Told, SORTS};
pub use evaluator::{Decision, LineKind, Matched};
pub use reader::read;
pub use walks::{walk_rows, WalkRow};

/// The data files, by name and content.
pub const SOURCES: [(&str, &str); 4] = [
    ("000-002.txt", include_str!("../data/000-002.txt")),
    ("001.txt", include_str!("../data/001.txt")),
    ("003.txt", include_str!("../data/003.txt")),
    ("004.txt", include_str!("../data/004.txt")),
];

/// The names of the line kinds. A kind's number is its place here; 0 is the
/// refused line.
pub const KINDS: [&str; 12] = [
    "refused",
    "blank",
    "noise",
    "other",
    "agent-readable",
    "agent-unreadable",
    "allow-empty",
    "allow-readable",
    "allow-unreadable",
    "disallow-empty",
    "disallow-readable",
    "disallow-unreadable",
];

/// One example: a row of a data file.
#[derive(Debug, Clone, PartialEq, Eq)]
pub struct Example {
    /// Unique among all rows, such as `001-fish-03`.
    pub id: String,
    /// The data file.
    pub source: String,
    /// The row's line in the data file, from 1.
    pub row: usize,
    /// Where the example stands in the source document.
    pub place: String,
    pub question: Question,
    pub printed: Printed,
    pub expected: Expected,
}

/// What is asked.
#[derive(Debug, Clone, PartialEq, Eq)]
pub enum Question {
    Decide {
        /// 0 for the RFC's, 1 for the draft's of 1996.
        dialect: usize,
        file: Vec<u8>,
        name: Vec<u8>,
        path: Vec<u8>,
    },
    Match {
        pattern: Vec<u8>,
        path: Vec<u8>,
    },
    Normalise {
        path: Vec<u8>,
    },
    Line {
        line: Vec<u8>,
    },
}

/// What the source says.
#[derive(Debug, Clone, PartialEq, Eq)]
pub enum Printed {
    Allow,
    Disallow,
    Undefined,
    Matches(bool),
    Normalised(Vec<u8>),
    /// A place in [`KINDS`].
    Kind(usize),
}

/// What document 01 says.
#[derive(Debug, Clone, PartialEq, Eq)]
pub enum Expected {
    Decide(Decision),
    Match(Matched),
    Normalise(Normalised),
    Line(LineKind),
}

/// The octets that normalising writes.
#[derive(Debug, Clone, PartialEq, Eq)]
pub struct Normalised {
    pub refusal: usize,
    pub octets: Vec<u8>,
}

/// A data file that can't be read, with the line at fault, from 1.
#[derive(Debug, Clone, PartialEq, Eq)]
pub struct Malformed {
    pub file: String,
    pub line: usize,
    pub reason: String,
}

impl fmt::Display for Malformed {
    fn fmt(&self, out: &mut fmt::Formatter<'_>) -> fmt::Result {
        write!(out, "{}:{}: {}", self.file, self.line, self.reason)
    }
}

impl std::error::Error for Malformed {}

impl Example {
    /// Whether document 01 answers otherwise than the source. A refusal is
    /// never what a source says.
    pub fn decided_against(&self) -> bool {
        match (&self.printed, &self.expected) {
            (Printed::Allow, Expected::Decide(d)) => d.refusal != 0 || d.disallow,
            (Printed::Disallow, Expected::Decide(d)) => d.refusal != 0 || !d.disallow,
            (Printed::Matches(yes), Expected::Match(m)) => m.refusal != 0 || m.found != *yes,
            (Printed::Normalised(text), Expected::Normalise(n)) => {
                n.refusal != 0 || n.octets != *text
            }
            (Printed::Kind(kind), Expected::Line(l)) => l.refusal != 0 || l.kind != *kind,
            _ => true,
        }
    }
}

/// All rows of all data files, in order. An id that stands twice is an error.
pub fn all() -> Result<Vec<Example>, Malformed> {
    let mut rows: Vec<Example> = Vec::new();
    for (file, text) in SOURCES {
        for row in read(file, text)? {
            if rows.iter().any(|other| other.id == row.id) {
                return Err(Malformed {
                    file: row.source,
                    line: row.row,
                    reason: format!("the id {} stands twice", row.id),
                });
            }
            rows.push(row);
        }
    }
    Ok(rows)
}

/// Whether a text has the form of an id: three digits, a word of lower-case
/// letters and digits, two digits, parted by "-".
pub fn is_id(text: &str) -> bool {
    let parts: Vec<&str> = text.split('-').collect();
    let [document, word, number] = parts[..] else {
        return false;
    };
    let digits = |part: &str, count| part.len() == count && part.bytes().all(is_digit);
    let plain = |b: u8| b.is_ascii_lowercase() || is_digit(b);
    digits(document, 3) && !word.is_empty() && word.bytes().all(plain) && digits(number, 2)
}

fn is_digit(octet: u8) -> bool {
    octet.is_ascii_digit()
}
