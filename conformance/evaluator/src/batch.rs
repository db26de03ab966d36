//! A list of paths, asked about in one call (document 02, M-101).

use crate::dialect::Dialect;
use crate::refusal::{self, Refusal};
use crate::{decide_in, Decision};

/// Decides about each path of a list. "Paths come joined in one slice, with a
/// slice of their ends." The three answers are each path's refusal, 0 allow or
/// 1 disallow, and the deciding line, "one place a path, each what a single
/// question gives". "Places beyond the last path stay."
///
/// Gives the refusal of the call: 20, then 1, 2, 12 and 13, and "nothing is
/// written"; otherwise 0.
pub fn batch(
    dialect: usize,
    file: &[u8],
    name: &[u8],
    paths: &[u8],
    ends: &[usize],
    mut answers: [&mut [usize]; 3],
) -> usize {
    if let Err(refusal) = refused(dialect, file, name, paths, ends, &answers) {
        return refusal.number();
    }
    for (place, path) in each_path(paths, ends).enumerate() {
        let decision = decide_in(dialect, file, name, path);
        write(&mut answers, place, &decision);
    }
    0
}

fn refused(
    dialect: usize,
    file: &[u8],
    name: &[u8],
    paths: &[u8],
    ends: &[usize],
    answers: &[&mut [usize]],
) -> Result<(), Refusal> {
    Dialect::numbered(dialect)?;
    refusal::length(file)?;
    refusal::name(name)?;
    refusal::ends(ends, paths)?;
    refusal::answers(ends, answers)
}

/// The paths themselves; each begins where the one before ends, the first at 0.
fn each_path<'a>(paths: &'a [u8], ends: &'a [usize]) -> impl Iterator<Item = &'a [u8]> {
    let starts = [0].into_iter().chain(ends.iter().copied());
    starts.zip(ends).map(|(start, end)| &paths[start..*end])
}

/// "Numbers, decisions and lines go into lent slices".
fn write(answers: &mut [&mut [usize]; 3], place: usize, decision: &Decision) {
    let [refusals, sides, lines] = answers;
    refusals[place] = decision.refusal;
    sides[place] = usize::from(decision.disallow);
    lines[place] = decision.line;
}
