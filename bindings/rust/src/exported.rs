//! The declarations of the C interface, and a safe function for each.

/// Where octets start. A length follows it, and `usize` is `size_t`.
type Start = *const u8;

/// The signatures of a line's functions, of a match's and of a decision's.
type OfLine = unsafe extern "C" fn(Start, usize) -> usize;
type OfMatch = unsafe extern "C" fn(Start, usize, Start, usize) -> usize;
type OfDecision = unsafe extern "C" fn(usize, Start, usize, Start, usize, Start, usize) -> usize;

#[link(name = "robots", kind = "static")]
extern "C" {
    // behind the dialect: file, name and path
    fn robots_decide_refusal(
        dialect: usize,
        _: Start,
        _: usize,
        _: Start,
        _: usize,
        _: Start,
        _: usize,
    ) -> usize;
    fn robots_decide_disallow(
        dialect: usize,
        _: Start,
        _: usize,
        _: Start,
        _: usize,
        _: Start,
        _: usize,
    ) -> usize;
    fn robots_decide_line(
        dialect: usize,
        _: Start,
        _: usize,
        _: Start,
        _: usize,
        _: Start,
        _: usize,
    ) -> usize;
    fn robots_decide_place(
        dialect: usize,
        _: Start,
        _: usize,
        _: Start,
        _: usize,
        _: Start,
        _: usize,
    ) -> usize;
    fn robots_decide_length(
        dialect: usize,
        _: Start,
        _: usize,
        _: Start,
        _: usize,
        _: Start,
        _: usize,
    ) -> usize;
    fn robots_decide_unread(
        dialect: usize,
        _: Start,
        _: usize,
        _: Start,
        _: usize,
        _: Start,
        _: usize,
    ) -> usize;
    fn robots_decide_compared(
        dialect: usize,
        _: Start,
        _: usize,
        _: Start,
        _: usize,
        _: Start,
        _: usize,
    ) -> usize;
    // behind the dialect: file, name, paths and ends, and the answers
    fn robots_batch(
        dialect: usize,
        _: Start,
        _: usize,
        _: Start,
        _: usize,
        _: Start,
        _: usize,
        ends: *const usize,
        _: usize,
        refusals: *mut usize,
        _: usize,
        sides: *mut usize,
        _: usize,
        lines: *mut usize,
        _: usize,
    ) -> usize;
    // pattern and path
    fn robots_match_refusal(_: Start, _: usize, _: Start, _: usize) -> usize;
    fn robots_match_found(_: Start, _: usize, _: Start, _: usize) -> usize;
    fn robots_match_compared(_: Start, _: usize, _: Start, _: usize) -> usize;
    // path and buffer; path and room
    fn robots_normalise(_: Start, _: usize, buffer: *mut u8, _: usize) -> usize;
    fn robots_normalise_refusal(_: Start, _: usize, room: usize) -> usize;
    // line
    fn robots_line_refusal(_: Start, _: usize) -> usize;
    fn robots_line_kind(_: Start, _: usize) -> usize;
    fn robots_line_place(_: Start, _: usize) -> usize;
    fn robots_line_length(_: Start, _: usize) -> usize;
}

/// Asks for one number of a decision.
fn of_decision(number: OfDecision, dialect: usize, file: &[u8], name: &[u8], path: &[u8]) -> usize {
    let (file, file_length) = (file.as_ptr(), file.len());
    let (name, name_length) = (name.as_ptr(), name.len());
    let (path, path_length) = (path.as_ptr(), path.len());
    // SAFETY: the pointers and lengths are those of slices.
    unsafe {
        number(
            dialect,
            file,
            file_length,
            name,
            name_length,
            path,
            path_length,
        )
    }
}

/// Asks for one number of a match.
fn of_match(number: OfMatch, pattern: &[u8], path: &[u8]) -> usize {
    // SAFETY: both pointers and lengths are those of slices.
    unsafe { number(pattern.as_ptr(), pattern.len(), path.as_ptr(), path.len()) }
}

/// Asks for one number of a line.
fn of_line(number: OfLine, line: &[u8]) -> usize {
    // SAFETY: pointer and length are those of a slice.
    unsafe { number(line.as_ptr(), line.len()) }
}

/// The refusal of a dialect, a file, a name and a path; 0 if answered. The
/// dialect is a number as C gives it, and any but [`Dialect`](crate::Dialect)'s
/// is refused, here and in the six below.
pub fn decide_refusal(dialect: usize, file: &[u8], name: &[u8], path: &[u8]) -> usize {
    of_decision(robots_decide_refusal, dialect, file, name, path)
}

/// 1 if the path is disallowed, 0 if it is allowed; 1 if refused.
pub fn decide_disallow(dialect: usize, file: &[u8], name: &[u8], path: &[u8]) -> usize {
    of_decision(robots_decide_disallow, dialect, file, name, path)
}

/// The deciding line, from 1; 0 if no rule decided.
pub fn decide_line(dialect: usize, file: &[u8], name: &[u8], path: &[u8]) -> usize {
    of_decision(robots_decide_line, dialect, file, name, path)
}

/// The place in the file of the deciding rule's raw pattern.
pub fn decide_place(dialect: usize, file: &[u8], name: &[u8], path: &[u8]) -> usize {
    of_decision(robots_decide_place, dialect, file, name, path)
}

/// The length of the deciding rule's raw pattern.
pub fn decide_length(dialect: usize, file: &[u8], name: &[u8], path: &[u8]) -> usize {
    of_decision(robots_decide_length, dialect, file, name, path)
}

/// The unreadable agent and rule lines in the whole file; 0 if refused.
pub fn decide_unread(dialect: usize, file: &[u8], name: &[u8], path: &[u8]) -> usize {
    of_decision(robots_decide_unread, dialect, file, name, path)
}

/// The pairs of octets that the walks compare; 0 if refused.
pub fn decide_compared(dialect: usize, file: &[u8], name: &[u8], path: &[u8]) -> usize {
    of_decision(robots_decide_compared, dialect, file, name, path)
}

/// A decision for each of the joined `paths`, which end at `ends`: its refusal,
/// its side (0 for allow, 1 for disallow) and its line go to its place in each of
/// the three slices. The refusal of the whole call; 0 if answered.
///
/// A refused call writes nothing, so whoever doesn't look at the number fills
/// `sides` with 1 beforehand. [`decide_all`](crate::decide_all) takes care of
/// that.
#[allow(clippy::too_many_arguments)] // one to one
pub fn batch(
    dialect: usize,
    file: &[u8],
    name: &[u8],
    paths: &[u8],
    ends: &[usize],
    refusals: &mut [usize],
    sides: &mut [usize],
    lines: &mut [usize],
) -> usize {
    // SAFETY: the pointers and lengths are those of slices, and a slice that is
    // written overlaps no other.
    unsafe {
        robots_batch(
            dialect,
            file.as_ptr(),
            file.len(),
            name.as_ptr(),
            name.len(),
            paths.as_ptr(),
            paths.len(),
            ends.as_ptr(),
            ends.len(),
            refusals.as_mut_ptr(),
            refusals.len(),
            sides.as_mut_ptr(),
            sides.len(),
            lines.as_mut_ptr(),
            lines.len(),
        )
    }
}

/// The refusal of a pattern and a path; 0 if answered.
pub fn match_refusal(pattern: &[u8], path: &[u8]) -> usize {
    of_match(robots_match_refusal, pattern, path)
}

/// 1 if the pattern matches the path, otherwise 0; 0 if refused.
pub fn match_found(pattern: &[u8], path: &[u8]) -> usize {
    of_match(robots_match_found, pattern, path)
}

/// The pairs of octets that the leftmost walk compares; 0 if refused.
pub fn match_compared(pattern: &[u8], path: &[u8]) -> usize {
    of_match(robots_match_compared, pattern, path)
}

/// Normalises a path into the front of `buffer`: octets written, 0 if
/// refused.
pub fn normalise(path: &[u8], buffer: &mut [u8]) -> usize {
    // SAFETY: both pointers and lengths are those of slices.
    unsafe { robots_normalise(path.as_ptr(), path.len(), buffer.as_mut_ptr(), buffer.len()) }
}

/// The refusal of a path for a buffer of `room` octets; 0 if answered.
pub fn normalise_refusal(path: &[u8], room: usize) -> usize {
    // SAFETY: pointer and length are those of a slice.
    unsafe { robots_normalise_refusal(path.as_ptr(), path.len(), room) }
}

/// The refusal of a line; 0 if answered.
pub fn line_refusal(line: &[u8]) -> usize {
    of_line(robots_line_refusal, line)
}

/// The number of a line's kind; 0 if refused.
pub fn line_kind(line: &[u8]) -> usize {
    of_line(robots_line_kind, line)
}

/// The place of an agent's value or a rule's pattern.
pub fn line_place(line: &[u8]) -> usize {
    of_line(robots_line_place, line)
}

/// The length of an agent's value or a rule's pattern.
pub fn line_length(line: &[u8]) -> usize {
    of_line(robots_line_length, line)
}
