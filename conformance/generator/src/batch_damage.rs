//! Ends of a list that are refused, and lengths of its answer slices.

use crate::random::Random;

/// Makes the ends decrease somewhere, or the last one another number than the
/// length of the joined paths. A few are still as they have to be.
pub(crate) fn damage_ends(random: &mut Random, paths: &mut Vec<u8>, ends: &mut Vec<usize>) {
    let Some(last) = ends.len().checked_sub(1) else {
        paths.extend(b"/a/".repeat(random.between(1, 3)));
        return;
    };
    let at = place(random, last);
    match random.below(12) {
        0 => ends[last] = ends[last].wrapping_sub(1),
        1 => ends[last] += 1,
        2 => paths.push(random.octet_of(b"/a#\0")),
        3 => {
            paths.pop();
        }
        4 => ends[at] = usize::MAX,
        5 => ends[at..].fill(usize::MAX),
        6 => ends[at] = paths.len() + random.between(1, 9),
        7 => {
            ends.pop();
        }
        8 => ends.reverse(),
        9 => ends[at] = 0,
        10 => ends.swap(at, at.saturating_sub(1)),
        _ => ends[at] = ends[at.saturating_sub(1)].wrapping_sub(1),
    }
}

/// The first, the second, the one before the last, the last or any.
fn place(random: &mut Random, last: usize) -> usize {
    match random.below(6) {
        0 => 0,
        1 => last.min(1),
        2 => last.saturating_sub(1),
        3 => last,
        _ => random.below(last + 1),
    }
}

/// As long as the list or longer; now and then one of them is shorter, or two
/// are.
pub(crate) fn lengths(random: &mut Random, count: usize) -> [usize; 3] {
    let mut lengths = [(); 3].map(|()| count + more(random));
    if count > 0 && random.percent(8) {
        for _ in 0..random.between(1, 2) {
            lengths[random.below(3)] = less(random, count);
        }
    }
    lengths
}

fn more(random: &mut Random) -> usize {
    match random.below(10) {
        0..=5 => 0,
        6..=7 => 1,
        _ => random.between(2, 40),
    }
}

fn less(random: &mut Random, count: usize) -> usize {
    match random.below(4) {
        0 => 0,
        1 => random.below(count),
        _ => count - 1,
    }
}
