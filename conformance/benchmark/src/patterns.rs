//! Matching and normalising: the inputs of the table of records, and patterns
//! of eleven stars.

use crate::eleven;
use crate::inputs::{self, Input};
use crate::rows::{Asked, Row};

/// So many records of each input are asked about, that a pass is short.
const RECORDS: usize = 400;

pub fn rows() -> Vec<Row> {
    let normalising = [inputs::plain_paths(), inputs::escaped_paths()].map(normalise);
    let matching = [inputs::fixed_patterns(), inputs::star_patterns()].map(matches);
    let stars = eleven::cases().map(|case| Row {
        name: format!("eleven stars, {}", case.name),
        asked: Asked::Match(vec![(case.pattern, case.path)]),
        units: 1,
    });
    normalising
        .into_iter()
        .chain(matching)
        .chain(stars)
        .collect()
}

fn first(input: &Input) -> Vec<Vec<u8>> {
    let records = input.records();
    records[..RECORDS].iter().map(|one| one.to_vec()).collect()
}

fn normalise(input: Input) -> Row {
    Row {
        name: input.name.to_string(),
        asked: Asked::Normalise(first(&input)),
        units: 1,
    }
}

fn matches(input: Input) -> Row {
    let pair = |pair: &[Vec<u8>]| (pair[0].clone(), pair[1].clone());
    Row {
        name: input.name.to_string(),
        asked: Asked::Match(first(&input).chunks_exact(2).map(pair).collect()),
        units: 1,
    }
}
