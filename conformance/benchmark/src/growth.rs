//! What grows: the file, the rules that apply, the path, and the stars.

use evaluator::RFC9309;

use crate::inputs::{mixed_line, Numbers};
use crate::rows::{Asked, Row};

const SIZES: [usize; 6] = [1_000, 4_000, 16_000, 64_000, 256_000, 512_000];
const RULES: [usize; 8] = [1, 4, 16, 64, 256, 1_024, 4_096, 16_384];
const PATHS: [usize; 8] = [16, 32, 64, 128, 256, 512, 1_024, 2_048];
const STARS: usize = 11;

/// The first octets of one file of lines of all sorts.
pub fn sizes() -> Vec<Row> {
    let mut numbers = Numbers::new();
    let mut file = Vec::new();
    while file.len() < SIZES[SIZES.len() - 1] {
        file.extend(mixed_line(&mut numbers).bytes());
        file.push(b'\n');
    }
    SIZES
        .map(|size| row(file[..size].to_vec(), "/a", size))
        .into()
}

/// Rules that apply, none of which matches.
pub fn rules() -> Vec<Row> {
    RULES
        .map(|count| {
            let rules = (0..count).map(|at| format!("disallow: /archive/{at:05}\n"));
            let file = format!("user-agent: *\n{}", rules.collect::<String>());
            row(file.into(), "/archive/next/news.html", count)
        })
        .into()
}

/// A path that two rules with stars go through to its end.
pub fn paths() -> Vec<Row> {
    PATHS
        .map(|length| {
            let file = b"user-agent: *\ndisallow: /*.pdf$\nallow: /*?q=*&page=\n";
            let path = format!("/{}", "a".repeat(length - 1));
            row(file.to_vec(), &path, length)
        })
        .into()
}

/// So many stars: the last one before "b", which the path of "a"s doesn't hold,
/// and the others before runs of one "a".
pub fn stars() -> Vec<Row> {
    (0..=STARS)
        .map(|stars| {
            let runs = match stars {
                0 => "b".to_string(),
                _ => format!("{}*b", "*a".repeat(stars - 1)),
            };
            let file = format!("user-agent: *\ndisallow: /{runs}\n");
            let path = format!("/{}", "a".repeat(1_000));
            row(file.into(), &path, stars)
        })
        .collect()
}

/// A row of so many units, which are its name.
fn row(file: Vec<u8>, path: &str, units: usize) -> Row {
    Row {
        name: units.to_string(),
        asked: Asked::Decide(RFC9309, file, vec![(b"another-bot".to_vec(), path.into())]),
        units: units.max(1),
    }
}
