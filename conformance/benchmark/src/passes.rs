//! What is measured: passes over an input, each giving one sum.

use std::hint::black_box;

use crate::inputs::{self, Input};
use crate::loaded::Loaded;
use crate::measure::{measure, Medians, Turns};

/// The same question asked of all records: of the library, of a build of it
/// that is loaded, and of the evaluator.
pub struct Passes {
    /// The exported function that is asked.
    pub function: &'static str,
    /// How many records one question takes.
    pub parts: usize,
    pub library: fn(&[&[u8]]) -> usize,
    pub loaded: fn(&[&[u8]], &Loaded) -> usize,
    pub evaluator: fn(&[&[u8]]) -> usize,
    /// Whether both give the same whole answer to one question.
    same: fn(&[&[u8]]) -> bool,
}

/// Makes an input.
type Make = fn() -> Input;

/// Each input, and what is asked about it.
pub const ASKED: [(Make, &Passes); 6] = [
    (inputs::mixed_file, &KINDS),
    (inputs::rules_file, &KINDS),
    (inputs::plain_paths, &NORMALISING),
    (inputs::escaped_paths, &NORMALISING),
    (inputs::fixed_patterns, &MATCHING),
    (inputs::star_patterns, &MATCHING),
];

/// The kind of each line.
const KINDS: Passes = Passes {
    function: "robots_line_kind",
    parts: 1,
    library: |lines| kinds(lines, library::line_kind),
    loaded: |lines, build| kinds(lines, |line| build.line_kind(line)),
    evaluator: |lines| kinds(lines, |line| evaluator::line_kind(line).kind),
    same: |record| {
        let line = record[0];
        let expected = evaluator::line_kind(line);
        library::line_refusal(line) == expected.refusal
            && library::line_kind(line) == expected.kind
            && library::line_place(line) == expected.place
            && library::line_length(line) == expected.length
    },
};

/// Each path normalised into the same buffer, which isn't cleared between.
const NORMALISING: Passes = Passes {
    function: "robots_normalise",
    parts: 1,
    library: |paths| normalise_all(paths, library::normalise),
    loaded: |paths, build| normalise_all(paths, |path, buffer| build.normalise(path, buffer)),
    evaluator: |paths| {
        normalise_all(paths, |path, buffer| {
            evaluator::normalise(path, buffer).written
        })
    },
    same: |path| {
        let (mut one, mut other) = ([0; MOST], [0; MOST]);
        let written = library::normalise(path[0], &mut one);
        written == evaluator::normalise(path[0], &mut other).written && one == other
    },
};

/// Each pattern matched against the path behind it.
pub const MATCHING: Passes = Passes {
    function: "robots_match_found",
    parts: 2,
    library: |records| match_all(records, library::match_found),
    loaded: |records, build| match_all(records, |pattern, path| build.match_found(pattern, path)),
    evaluator: |records| {
        match_all(records, |pattern, path| {
            usize::from(evaluator::match_pattern(pattern, path).found)
        })
    },
    same: |pair| {
        let (pattern, path) = (pair[0], pair[1]);
        let expected = evaluator::match_pattern(pattern, path);
        library::match_refusal(pattern, path) == expected.refusal
            && library::match_found(pattern, path) == usize::from(expected.found)
            && library::match_compared(pattern, path) == expected.compared
    },
};

fn kinds(lines: &[&[u8]], kind: impl Fn(&[u8]) -> usize) -> usize {
    lines.iter().map(|line| kind(black_box(line))).sum()
}

fn match_all(records: &[&[u8]], found: impl Fn(&[u8], &[u8]) -> usize) -> usize {
    records
        .chunks_exact(2)
        .map(|pair| found(black_box(pair[0]), black_box(pair[1])))
        .sum()
}

/// The longest normalised path.
pub const MOST: usize = 6_142;

fn normalise_all(paths: &[&[u8]], normalise: impl Fn(&[u8], &mut [u8]) -> usize) -> usize {
    let mut buffer = [0; MOST];
    let mut sum = 0;
    for path in paths {
        let written = normalise(black_box(path), black_box(&mut buffer));
        // no path is refused, so an octet has been written
        sum += written + usize::from(buffer[written - 1]);
    }
    sum
}

/// The LF pass.
pub fn count_line_feeds(text: &[u8]) -> usize {
    black_box(text)
        .iter()
        .filter(|octet| **octet == b'\n')
        .count()
}

/// Checks the passes over this input, and measures them.
pub fn checked_medians(input: &Input, records: &[&[u8]], passes: &Passes) -> Medians<2> {
    check(input, records, passes);
    measure(&Turns {
        name: input.name,
        answering: [&|| (passes.library)(records), &|| {
            (passes.evaluator)(records)
        }],
        lf_pass: &|| count_line_feeds(&input.text),
        line_feeds: records.len(),
    })
}

/// All three passes see the same octets, and library and evaluator answer
/// alike.
fn check(input: &Input, records: &[&[u8]], passes: &Passes) {
    let octets: usize = records.iter().map(|record| record.len() + 1).sum();
    assert_eq!(octets, input.text.len(), "{}: octets", input.name);
    let line_feeds = count_line_feeds(&input.text);
    assert_eq!(line_feeds, records.len(), "{}: records", input.name);
    assert_eq!(records.len() % passes.parts, 0, "{}: parts", input.name);
    for question in records.chunks(passes.parts) {
        let octets = question.join(b" ".as_slice());
        assert!((passes.same)(question), "{}", octets.escape_ascii());
    }
}
