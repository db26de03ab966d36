//! Small questions: little file, and paths of several lengths.

use evaluator::RFC9309;

use crate::rows::{Asked, Row};

const TWO_LINES: &[u8] = b"User-agent: *\nDisallow: /search\n";
const LENGTHS: [usize; 5] = [129, 400, 513, 1_024, 2_048];

pub fn rows() -> Vec<Row> {
    let mut rows = vec![
        question("empty file", b"", b"/archive/2024/news.html".to_vec()),
        question("two lines", TWO_LINES, b"/archive/2024/news.html".to_vec()),
    ];
    for (sort, unit) in [("literal", "/archive2024"), ("escapes", "%41%2f%e9a")] {
        for length in LENGTHS {
            let name = format!("two lines, {length} {sort}");
            rows.push(question(name, TWO_LINES, path(unit, length)));
        }
    }
    rows
}

/// The units are questions, so that the row gives no time an octet.
fn question(name: impl Into<String>, file: &[u8], path: Vec<u8>) -> Row {
    Row {
        name: name.into(),
        asked: Asked::Decide(RFC9309, file.to_vec(), vec![(b"ExampleBot".to_vec(), path)]),
        units: 1,
    }
}

/// "/" and the unit again and again.
fn path(unit: &str, length: usize) -> Vec<u8> {
    let units = unit.bytes().cycle();
    b"/".iter().copied().chain(units).take(length).collect()
}
