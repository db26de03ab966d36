//! One number of an answer each, as the library gives them.

use plain::{decide, match_pattern};

pub use plain::batch;

pub fn decide_refusal(dialect: usize, file: &[u8], name: &[u8], path: &[u8]) -> usize {
    decide(dialect, file, name, path).refusal
}

pub fn decide_disallow(dialect: usize, file: &[u8], name: &[u8], path: &[u8]) -> usize {
    decide(dialect, file, name, path).disallow
}

pub fn decide_line(dialect: usize, file: &[u8], name: &[u8], path: &[u8]) -> usize {
    decide(dialect, file, name, path).line
}

pub fn decide_place(dialect: usize, file: &[u8], name: &[u8], path: &[u8]) -> usize {
    decide(dialect, file, name, path).place
}

pub fn decide_length(dialect: usize, file: &[u8], name: &[u8], path: &[u8]) -> usize {
    decide(dialect, file, name, path).length
}

pub fn decide_unread(dialect: usize, file: &[u8], name: &[u8], path: &[u8]) -> usize {
    decide(dialect, file, name, path).unread
}

pub fn decide_compared(dialect: usize, file: &[u8], name: &[u8], path: &[u8]) -> usize {
    decide(dialect, file, name, path).compared
}

pub fn match_refusal(pattern: &[u8], path: &[u8]) -> usize {
    match_pattern(pattern, path).refusal
}

pub fn match_found(pattern: &[u8], path: &[u8]) -> usize {
    match_pattern(pattern, path).found
}

pub fn match_compared(pattern: &[u8], path: &[u8]) -> usize {
    match_pattern(pattern, path).compared
}

pub fn normalise(path: &[u8], buffer: &mut [u8]) -> usize {
    plain::normalise(path, buffer).written
}

/// No buffer is lent here, so one of this room is made.
pub fn normalise_refusal(path: &[u8], room: usize) -> usize {
    plain::normalise(path, &mut vec![0; room]).refusal
}

// The plain evaluator tells no kinds of lines; these are the independent one's.

pub fn line_refusal(line: &[u8]) -> usize {
    evaluator::line_kind(line).refusal
}

pub fn line_kind(line: &[u8]) -> usize {
    evaluator::line_kind(line).kind
}

pub fn line_place(line: &[u8]) -> usize {
    evaluator::line_kind(line).place
}

pub fn line_length(line: &[u8]) -> usize {
    evaluator::line_kind(line).length
}
