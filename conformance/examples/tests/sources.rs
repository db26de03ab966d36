//! Every example of the sources against the evaluator, and the list in
//! docs/EXAMPLES.md against the rows.

use std::collections::BTreeSet;

use examples::{Example, Expected, Normalised, Question};

/// How many rows each data file has.
const COUNTS: [(&str, usize); 4] = [
    ("000-002.txt", 84),
    ("001.txt", 125),
    ("003.txt", 49),
    ("004.txt", 83),
];

/// More than any normalised path: 6,142 octets and a tail.
const BUFFER: usize = 6_200;
const UNTOUCHED: u8 = 0xA5;

fn rows() -> Vec<Example> {
    examples::all().unwrap_or_else(|fault| panic!("{fault}"))
}

fn list() -> String {
    let path = concat!(env!("CARGO_MANIFEST_DIR"), "/../../docs/EXAMPLES.md");
    std::fs::read_to_string(path).expect("docs/EXAMPLES.md can be read")
}

fn normalise(path: &[u8]) -> Expected {
    let mut buffer = [UNTOUCHED; BUFFER];
    let got = evaluator::normalise(path, &mut buffer);
    let (front, tail) = buffer.split_at(got.written);
    assert!(tail.iter().all(|&b| b == UNTOUCHED), "the tail was written");
    Expected::Normalise(Normalised {
        refusal: got.refusal,
        octets: front.to_vec(),
    })
}

fn ask(question: &Question) -> Expected {
    match question {
        Question::Decide {
            dialect,
            file,
            name,
            path,
        } => Expected::Decide(evaluator::decide_in(*dialect, file, name, path)),
        Question::Match { pattern, path } => {
            Expected::Match(evaluator::match_pattern(pattern, path))
        }
        Question::Normalise { path } => normalise(path),
        Question::Line { line } => Expected::Line(evaluator::line_kind(line)),
    }
}

fn difference(row: &Example) -> Option<String> {
    let got = ask(&row.question);
    (got != row.expected).then(|| {
        format!(
            "{} ({}:{}, {})\n  document 01: {:?}\n  evaluator:   {:?}",
            row.id, row.source, row.row, row.place, row.expected, got
        )
    })
}

#[test]
fn every_row_is_answered_as_document_01_says() {
    let wrong: Vec<String> = rows().iter().filter_map(difference).collect();
    assert!(wrong.is_empty(), "{}", wrong.join("\n"));
}

#[test]
fn no_row_is_skipped() {
    let rows = rows();
    for (file, count) in COUNTS {
        let read = rows.iter().filter(|row| row.source == file).count();
        assert_eq!(read, count, "{file}");
    }
    let total: usize = COUNTS.iter().map(|(_, count)| count).sum();
    assert_eq!(rows.len(), total);
}

/// The rows of 004's table in its own dialect: each as printed.
#[test]
fn the_drafts_table_is_answered_as_printed() {
    let rows = rows();
    let table = rows
        .iter()
        .filter(|row| row.id.starts_with("004-drafttable-"));
    let table: Vec<&Example> = table.collect();
    assert_eq!(table.len(), 15);
    assert!(table.iter().all(|row| !row.decided_against()));
}

/// How many rows ask for a decision in each dialect.
#[test]
fn both_dialects_are_asked() {
    let mut asked = [0; 2];
    for row in rows() {
        if let Question::Decide { dialect, .. } = row.question {
            asked[dialect] += 1;
            assert!(dialect == 0 || row.source == "004.txt", "{}", row.id);
        }
    }
    assert_eq!(asked, [163, 42]);
}

#[test]
fn each_row_stands_in_its_own_source() {
    for row in rows() {
        assert_eq!(row.id[..3], row.source[..3], "{}", row.id);
        assert!(row.place.starts_with(&row.source[..3]), "{}", row.id);
    }
}

#[test]
fn the_list_names_exactly_the_rows_decided_against() {
    let list = list();
    let parts = list.split(|c: char| !c.is_ascii_alphanumeric() && c != '-');
    let listed: BTreeSet<&str> = parts.filter(|part| examples::is_id(part)).collect();
    let rows = rows();
    let against = rows.iter().filter(|row| row.decided_against());
    let against: BTreeSet<&str> = against.map(|row| row.id.as_str()).collect();
    assert_eq!(listed, against);
}

#[test]
fn the_list_gives_the_counts() {
    let list = list();
    let rows = rows();
    for (file, count) in COUNTS {
        let of_file = rows.iter().filter(|row| row.source == file);
        let against = of_file.filter(|row| row.decided_against()).count();
        let start = format!("| `{file}` |");
        let end = format!("| {count} | {against} |");
        let told = |line: &str| line.starts_with(&start) && line.ends_with(&end);
        assert!(list.lines().any(told), "{start} ... {end}");
    }
}
