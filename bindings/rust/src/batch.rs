//! A list of paths, asked about in one call.

use crate::decision::{Dialect, Refusal};
use crate::exported::batch;

/// What is decided for one path of a list.
#[derive(Clone, Copy, Debug, PartialEq, Eq)]
pub struct Answer {
    /// Why this path is refused, if it is; the others are answered all the same.
    pub refusal: Option<Refusal>,
    /// True for a refused path too.
    pub disallow: bool,
    /// Of the rule that decided, from 1; 0 if none did.
    pub line: usize,
}

/// May the crawler `name` fetch each of `paths`, by the rules in `file`? Each
/// answer is that to a single question, in the order of the list; the file is
/// read once.
///
/// If the file or the name is refused, no path has an answer, and all of them
/// are to be left alone.
pub fn decide_all(
    dialect: Dialect,
    file: &[u8],
    name: &[u8],
    paths: &[&[u8]],
) -> Result<Vec<Answer>, Refusal> {
    let joined = paths.concat();
    let ends = ends_of(paths);
    let mut refusals = vec![0; paths.len()];
    // disallow, so that a place that isn't written opens nothing
    let mut sides = vec![1; paths.len()];
    let mut lines = vec![0; paths.len()];
    let number = batch(
        dialect as usize,
        file,
        name,
        &joined,
        &ends,
        &mut refusals,
        &mut sides,
        &mut lines,
    );
    match Refusal::given(number) {
        Some(refusal) => Err(refusal),
        None => Ok(answers(&refusals, &sides, &lines)),
    }
}

/// Where each path ends once all are joined.
fn ends_of(paths: &[&[u8]]) -> Vec<usize> {
    let mut end = 0;
    let up_to = |path: &&[u8]| {
        end += path.len();
        end
    };
    paths.iter().map(up_to).collect()
}

fn answers(refusals: &[usize], sides: &[usize], lines: &[usize]) -> Vec<Answer> {
    let numbers = refusals.iter().zip(sides).zip(lines);
    let answer = |((refusal, side), line): ((&usize, &usize), &usize)| Answer {
        refusal: Refusal::given(*refusal),
        disallow: *side != 0,
        line: *line,
    };
    numbers.map(answer).collect()
}
