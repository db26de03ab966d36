//! The rows of the table: questions that are asked of the library and of plain
//! C.

use std::hint::black_box;

use evaluator::RFC9309;

use crate::loaded::{self, Loaded, Signature, LINKED};
use crate::loaded_plain::{self, LoadedPlain};
use crate::passes::MOST;

/// Two inputs of a question: a name and a path, or a pattern and a path.
pub type Pair = (Vec<u8>, Vec<u8>);

/// Who is asked.
#[derive(Clone, Copy)]
pub enum Side<'a> {
    Library(&'a Loaded),
    PlainC(&'a LoadedPlain),
    Evaluator,
}

/// Library and plain C, loaded.
pub struct Both {
    library: Loaded,
    plain_c: LoadedPlain,
}

impl Both {
    /// With so many octets before the code of each.
    pub fn load(before: usize) -> Both {
        let handles = loaded::open(&[(LINKED, before), (plain::ARCHIVE, before)]);
        Both {
            library: loaded::library(handles[0], LINKED, Signature::WithDialect),
            plain_c: loaded_plain::plain_c(handles[1]),
        }
    }

    pub fn sides(&self) -> [Side<'_>; 2] {
        [Side::Library(&self.library), Side::PlainC(&self.plain_c)]
    }
}

/// What is asked.
pub enum Asked {
    /// Each name and path, by this file, in this dialect.
    Decide(usize, Vec<u8>, Vec<Pair>),
    /// The same in the RFC's, for the unread count.
    Unread(Vec<u8>, Vec<Pair>),
    /// Each pattern against its path.
    Match(Vec<Pair>),
    /// Each path normalised into the same buffer.
    Normalise(Vec<Vec<u8>>),
}

pub struct Row {
    pub name: String,
    pub asked: Asked,
    /// A question's time is divided by this too: octets, rules or stars.
    pub units: usize,
}

impl Row {
    /// A decision by this file in the RFC's dialect; its octets are the units.
    pub fn deciding(name: impl Into<String>, file: Vec<u8>, questions: Vec<Pair>) -> Row {
        Row {
            name: name.into(),
            units: file.len().max(1),
            asked: Asked::Decide(RFC9309, file, questions),
        }
    }

    /// How many questions a pass asks.
    pub fn questions(&self) -> usize {
        match &self.asked {
            Asked::Decide(_, _, pairs) | Asked::Unread(_, pairs) | Asked::Match(pairs) => {
                pairs.len()
            }
            Asked::Normalise(paths) => paths.len(),
        }
    }

    /// Asks all questions of one side, and gives a sum of the answers.
    pub fn pass(&self, side: Side) -> usize {
        match &self.asked {
            Asked::Decide(dialect, file, pairs) => decide_all(side, *dialect, file, pairs),
            Asked::Unread(file, pairs) => unread_all(side, file, pairs),
            Asked::Match(pairs) => match_all(side, pairs),
            Asked::Normalise(paths) => normalise_all(side, paths),
        }
    }
}

fn decide_all(side: Side, dialect: usize, file: &[u8], pairs: &[Pair]) -> usize {
    let file = || black_box(file);
    match side {
        Side::Library(build) => sum(pairs, |name, path| {
            build.decide_disallow(dialect, file(), name, path)
        }),
        Side::PlainC(build) => sum(pairs, |name, path| {
            build.decide(dialect, file(), name, path).disallow
        }),
        Side::Evaluator => sum(pairs, |name, path| {
            usize::from(evaluator::decide_in(dialect, file(), name, path).disallow)
        }),
    }
}

fn unread_all(side: Side, file: &[u8], pairs: &[Pair]) -> usize {
    let file = || black_box(file);
    match side {
        Side::Library(build) => sum(pairs, |name, path| {
            build.decide_unread(RFC9309, file(), name, path)
        }),
        Side::PlainC(build) => sum(pairs, |name, path| {
            build.decide(RFC9309, file(), name, path).unread
        }),
        Side::Evaluator => sum(pairs, |name, path| {
            evaluator::decide(file(), name, path).unread
        }),
    }
}

fn match_all(side: Side, pairs: &[Pair]) -> usize {
    match side {
        Side::Library(build) => sum(pairs, |pattern, path| build.match_found(pattern, path)),
        Side::PlainC(build) => sum(pairs, |pattern, path| {
            build.match_pattern(pattern, path).found
        }),
        Side::Evaluator => sum(pairs, |pattern, path| {
            usize::from(evaluator::match_pattern(pattern, path).found)
        }),
    }
}

fn sum(pairs: &[Pair], answer: impl Fn(&[u8], &[u8]) -> usize) -> usize {
    pairs
        .iter()
        .map(|(one, path)| answer(black_box(one), black_box(path)))
        .sum()
}

fn normalise_all(side: Side, paths: &[Vec<u8>]) -> usize {
    match side {
        Side::Library(build) => written(paths, |path, buffer| build.normalise(path, buffer)),
        Side::PlainC(build) => written(paths, |path, buffer| build.normalise(path, buffer).written),
        Side::Evaluator => written(paths, |path, buffer| {
            evaluator::normalise(path, buffer).written
        }),
    }
}

fn written(paths: &[Vec<u8>], normalise: impl Fn(&[u8], &mut [u8]) -> usize) -> usize {
    let mut buffer = [0; MOST];
    let mut sum = 0;
    for path in paths {
        let written = normalise(black_box(path), black_box(&mut buffer));
        // no path is refused, so an octet has been written
        sum += written + usize::from(buffer[written - 1]);
    }
    sum
}
