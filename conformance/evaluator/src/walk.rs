//! The leftmost walk, with its count.

use crate::normal::{Path, Pattern};

/// What a walk finds, and the number of pairs it compared.
#[derive(Debug, Clone, Copy, PartialEq, Eq)]
pub(crate) struct Walk {
    pub(crate) found: bool,
    pub(crate) compared: usize,
}

/// "The walk finds a match exactly when every run stands, and its count is
/// the number of pairs compared."
pub(crate) fn walk(pattern: &Pattern, path: &Path) -> Walk {
    let path = path.octets();
    let runs = pattern.runs();
    let mut compared = 0;
    let mut end_before = 0;
    for (index, run) in runs.iter().enumerate() {
        let is_first = index == 0;
        let is_last = index + 1 == runs.len();
        let stands = if is_last && pattern.has_end_mark() {
            place_at_end(run, path, end_before, is_first, &mut compared)
        } else if is_first {
            place_at(run, path, 0, &mut compared)
        } else {
            place_leftmost(run, path, end_before, &mut compared)
        };
        // "After the first failed run the rule is done."
        let Some(end) = stands else {
            return Walk {
                found: false,
                compared,
            };
        };
        end_before = end;
    }
    Walk {
        found: true,
        compared,
    }
}

/// "with an end mark, the last run has one possible start, p less its
/// length"; gives the run's end if it stands.
fn place_at_end(
    run: &[u8],
    path: &[u8],
    end_before: usize,
    is_first: bool,
    compared: &mut usize,
) -> Option<usize> {
    // "It fails at no cost if that start is under 0 or under the end of the
    // run before, or, for a run that is also the first, not 0."
    let start = path.len().checked_sub(run.len())?;
    if start < end_before || (is_first && start != 0) {
        return None;
    }
    place_at(run, path, start, compared)
}

/// "tried at the end of the run before it, then one further each time,
/// until it stands"
fn place_leftmost(
    run: &[u8],
    path: &[u8],
    end_before: usize,
    compared: &mut usize,
) -> Option<usize> {
    let mut start = end_before;
    // "A try that would pass p fails the rule at no cost."
    while start + run.len() <= path.len() {
        if let Some(end) = place_at(run, path, start, compared) {
            return Some(end);
        }
        start += 1;
    }
    None
}

/// One try: "compares left to right, stops at the first difference, and
/// each pair compared counts 1".
fn place_at(run: &[u8], path: &[u8], start: usize, compared: &mut usize) -> Option<usize> {
    let end = start + run.len();
    let stretch = path.get(start..end)?;
    for (wanted, held) in run.iter().zip(stretch) {
        *compared += 1;
        if wanted != held {
            return None;
        }
    }
    Some(end)
}
