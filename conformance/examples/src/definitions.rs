//! The rows of Examples.antt, OwnExamples.antt and DraftExamples.antt in
//! crates/protocol/specs and of Examples.antt in crates/exchange/specs, for which
//! the definitions are proved to compute the given answers.

use evaluator::{Decision, LineKind, Matched, DRAFT1996, RFC9309};

use crate::rows::{self, Row, Scanner};

/// As crates/ has them.
const FILES: [&str; 4] = [
    "protocol/specs/Examples.antt",
    "protocol/specs/OwnExamples.antt",
    "protocol/specs/DraftExamples.antt",
    "exchange/specs/Examples.antt",
];

/// The sorts of rows that are questions, and how many questions there are of each:
/// two to an `exchange_row`, one to any other.
pub const SORTS: [(&str, usize); 14] = [
    ("row", 87),
    ("row_in", 15),
    ("row_by", 19),
    ("draft_row", 17),
    ("path_row", 16),
    ("sizes", 4),
    ("run", 6),
    ("located", 5),
    ("line_row", 60),
    ("match_row", 26),
    ("normal_row", 12),
    ("answered_list", 7),
    ("refused_list", 14),
    // those that may be exchanged, and those that may not
    ("exchange_row", 2 * (2 + 14)),
];

/// A question of a table's row, with the answer that is written there.
#[derive(Debug, Clone, PartialEq, Eq)]
pub struct DefinitionRow {
    /// File, line and text of the row, for a message.
    pub place: String,
    /// One of [`SORTS`].
    pub sort: String,
    pub asked: Asked,
}

/// A question and what the row tells of its answer.
#[derive(Debug, Clone, PartialEq, Eq)]
pub enum Asked {
    Decide {
        dialect: usize,
        file: Vec<u8>,
        name: Vec<u8>,
        path: Vec<u8>,
        told: Told,
    },
    Program {
        input: Vec<u8>,
        output: Vec<u8>,
    },
    Line {
        line: Vec<u8>,
        expected: LineKind,
    },
    Match {
        pattern: Vec<u8>,
        path: Vec<u8>,
        expected: Matched,
    },
    /// The buffer is what it holds before and behind the call.
    Normalise {
        path: Vec<u8>,
        buffer: [Vec<u8>; 2],
        refusal: usize,
        written: usize,
    },
    Batch(BatchRow),
}

/// A question about a list of paths, with its answer.
#[derive(Debug, Clone, PartialEq, Eq)]
pub struct BatchRow {
    pub dialect: usize,
    pub file: Vec<u8>,
    pub name: Vec<u8>,
    /// The paths, joined.
    pub paths: Vec<u8>,
    pub ends: Vec<usize>,
    /// Of the call.
    pub refusal: usize,
    /// Refusals, sides and lines, before and behind the call.
    pub slices: [[Vec<usize>; 3]; 2],
}

/// The numbers of a decision that a row has.
#[derive(Debug, Clone, PartialEq, Eq)]
pub enum Told {
    Refusal(usize),
    Disallow(bool),
    /// Refusal, disallow, line, unread and compared.
    Answer([usize; 5]),
    /// Place and length of the deciding pattern.
    Octets([usize; 2]),
}

impl Told {
    /// The same numbers of this decision.
    pub fn of(&self, decision: &Decision) -> Told {
        match self {
            Told::Refusal(_) => Told::Refusal(decision.refusal),
            Told::Disallow(_) => Told::Disallow(decision.disallow),
            Told::Answer(_) => Told::Answer([
                decision.refusal,
                usize::from(decision.disallow),
                decision.line,
                decision.unread,
                decision.compared,
            ]),
            Told::Octets(_) => Told::Octets([decision.place, decision.length]),
        }
    }
}

/// The questions of all rows of these files, in order. What can't be read is a
/// panic.
pub fn definition_rows() -> Vec<DefinitionRow> {
    let crates = concat!(env!("CARGO_MANIFEST_DIR"), "/../../crates");
    let read = |file| {
        let text = std::fs::read_to_string(format!("{crates}/{file}"));
        let text = text.unwrap_or_else(|fault| panic!("{file}: {fault}"));
        table_rows(file, &text)
    };
    FILES.into_iter().flat_map(read).collect()
}

/// The same of one file's text.
pub fn table_rows(file: &'static str, text: &str) -> Vec<DefinitionRow> {
    let sorts = SORTS.map(|(sort, _)| sort);
    let rows = rows::read(file, text, &sorts).into_iter();
    rows.flat_map(scanned).collect()
}

fn scanned(row: Row) -> Vec<DefinitionRow> {
    let mut rest = Scanner::new(&row.text);
    let sort = rest.word();
    let asked = match sort.as_str() {
        "exchange_row" => exchange(&mut rest).to_vec(),
        _ => vec![question(&sort, &mut rest)],
    };
    rest.end();
    let place = format!("{}:{}: {}", row.file, row.line, row.text);
    let with_place = |asked| DefinitionRow {
        place: place.clone(),
        sort: sort.clone(),
        asked,
    };
    asked.into_iter().map(with_place).collect()
}

/// Of a row that has one.
fn question(sort: &str, rest: &mut Scanner) -> Asked {
    match sort {
        "row" => {
            let file = rest.text_of_lines();
            decide(rest, RFC9309, file)
        }
        "row_in" => {
            let file = rest.octets();
            decide(rest, RFC9309, file)
        }
        "row_by" => {
            let (dialect, file) = (rest.number(), rest.text_of_lines());
            decide(rest, dialect, file)
        }
        "draft_row" => {
            let file = rest.text_of_lines();
            decide(rest, DRAFT1996, file)
        }
        "path_row" => path_matches(rest),
        "sizes" => sizes(rest),
        "run" => run(rest),
        "located" => located(rest),
        "line_row" => line(rest),
        "match_row" => match_pattern(rest),
        "normal_row" => normalise(rest),
        "answered_list" => answered_list(rest),
        "refused_list" => refused_list(rest),
        other => panic!("an unknown sort of row: {other}"),
    }
}

/// A row of document 01's table or of ours: name, path, answer.
fn decide(row: &mut Scanner, dialect: usize, file: Vec<u8>) -> Asked {
    Asked::Decide {
        dialect,
        file,
        name: row.text(),
        path: row.text(),
        told: answer(row),
    }
}

fn answer(row: &mut Scanner) -> Told {
    match row.answer() {
        (word, numbers) if word == "refused" => {
            let [refusal] = numbers[..] else {
                panic!("refused wants one number, not {numbers:?}")
            };
            Told::Answer([refusal, 1, 0, 0, 0])
        }
        (word, numbers) => {
            let [line, unread, compared] = numbers[..] else {
                panic!("{word} wants three numbers, not {numbers:?}")
            };
            Told::Answer([0, disallow(&word), line, unread, compared])
        }
    }
}

/// Mark, front, one, two, rest; the numbers of the tests that fail, which aren't
/// asked; name, path; the answers about the file, and with one and two exchanged.
fn exchange(row: &mut Scanner) -> [Asked; 2] {
    let mut parts = [(); 5].map(|()| row.marked_text());
    let file = parts.concat();
    parts.swap(2, 3);
    let files = [file, parts.concat()];
    row.numbers();
    row.numbers();
    let (name, path) = (row.text(), row.text());
    files.map(|file| Asked::Decide {
        dialect: RFC9309,
        file,
        name: name.clone(),
        path: path.clone(),
        told: answer(row),
    })
}

/// A row of the draft's table: record path, URL path, whether a disallow line of
/// the one closes the other, for the name a.
fn path_matches(row: &mut Scanner) -> Asked {
    Asked::Decide {
        dialect: DRAFT1996,
        file: [b"user-agent: *\ndisallow: ", row.text().as_slice()].concat(),
        name: b"a".to_vec(),
        path: row.text(),
        told: Told::Disallow(row.truth()),
    }
}

fn disallow(word: &str) -> usize {
    match word {
        "allow" => 0,
        "disallow" => 1,
        other => panic!("neither allow nor disallow: {other}"),
    }
}

/// Octets of "x" as name, and behind a "/" as path; refusal.
fn sizes(row: &mut Scanner) -> Asked {
    Asked::Decide {
        dialect: RFC9309,
        file: Vec::new(),
        name: vec![b'x'; row.number()],
        path: [b"/".to_vec(), vec![b'x'; row.number()]].concat(),
        told: Told::Refusal(row.number()),
    }
}

/// The program's input and output.
fn run(row: &mut Scanner) -> Asked {
    Asked::Program {
        input: row.octets(),
        output: row.text(),
    }
}

/// File, path, place and length of the deciding pattern, for the name a.
fn located(row: &mut Scanner) -> Asked {
    Asked::Decide {
        dialect: RFC9309,
        file: row.octets(),
        name: b"a".to_vec(),
        path: row.text(),
        told: Told::Octets([row.number(), row.number()]),
    }
}

/// Line, refusal, kind, place, length.
fn line(row: &mut Scanner) -> Asked {
    Asked::Line {
        line: row.octets(),
        expected: LineKind {
            refusal: row.number(),
            kind: row.number(),
            place: row.number(),
            length: row.number(),
        },
    }
}

/// Pattern, path, refusal, yes or no, count.
fn match_pattern(row: &mut Scanner) -> Asked {
    Asked::Match {
        pattern: row.text(),
        path: row.text(),
        expected: Matched {
            refusal: row.number(),
            found: row.truth(),
            compared: row.number(),
        },
    }
}

/// Path, buffer, refusal, octets written, what the buffer holds then.
fn normalise(row: &mut Scanner) -> Asked {
    let (path, before) = (row.octets(), row.text());
    let (refusal, written) = (row.number(), row.number());
    Asked::Normalise {
        path,
        buffer: [before, row.text()],
        refusal,
        written,
    }
}

/// Dialect, file, name, joined paths, ends, the slices, what they hold then.
fn answered_list(row: &mut Scanner) -> Asked {
    Asked::Batch(BatchRow {
        dialect: row.number(),
        file: row.text_of_lines(),
        name: row.text(),
        paths: row.text(),
        ends: row.numbers(),
        refusal: 0,
        slices: [row.lent(), row.lent()],
    })
}

/// The file that these rows share, refusal, dialect, name, joined paths, ends, the
/// slices, in which nothing is written.
fn refused_list(row: &mut Scanner) -> Asked {
    let (file, refusal) = (row.text_of_lines(), row.number());
    let dialect = row.number();
    let (name, paths, ends) = (row.text(), row.text(), row.numbers());
    let slices = row.lent();
    Asked::Batch(BatchRow {
        dialect,
        file,
        name,
        paths,
        ends,
        refusal,
        slices: [slices.clone(), slices],
    })
}
