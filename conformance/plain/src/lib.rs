//! A plain evaluator of robots.txt in C, as a crawler's programmer would write
//! it for use: the library is measured against it. It decides, also for a list
//! of paths, matches and normalises, and tells no kinds of lines.

/// The C as it was compiled, for a program that loads it.
pub const ARCHIVE: &str = concat!(env!("OUT_DIR"), "/libplain.a");

/// The seven numbers of a decision. A refused one holds its number, disallow,
/// and zeros.
#[repr(C)]
#[derive(Debug, Clone, Copy, PartialEq, Eq)]
pub struct Decision {
    /// 0 if answered.
    pub refusal: usize,
    /// 0 or 1.
    pub disallow: usize,
    /// The deciding line, from 1; 0 if no rule decided.
    pub line: usize,
    /// The place in the file of the deciding rule's raw pattern.
    pub place: usize,
    pub length: usize,
    /// Unreadable agent and rule lines in the whole file.
    pub unread: usize,
    /// Pairs of octets compared for the rules that apply.
    pub compared: usize,
}

/// One pattern against one path. A refused match holds its number and zeros.
#[repr(C)]
#[derive(Debug, Clone, Copy, PartialEq, Eq)]
pub struct Matched {
    /// 0 if answered.
    pub refusal: usize,
    /// 0 or 1.
    pub found: usize,
    /// Pairs of octets compared.
    pub compared: usize,
}

/// A path normalised into a buffer. A refused one writes nothing.
#[repr(C)]
#[derive(Debug, Clone, Copy, PartialEq, Eq)]
pub struct Normalised {
    /// 0 if answered.
    pub refusal: usize,
    /// Octets written into the front of the buffer.
    pub written: usize,
}

#[link(name = "plain", kind = "static")]
extern "C" {
    fn plain_decide(
        dialect: usize,
        file: *const u8,
        file_length: usize,
        name: *const u8,
        name_length: usize,
        path: *const u8,
        path_length: usize,
    ) -> Decision;
    fn plain_batch(
        dialect: usize,
        file: *const u8,
        file_length: usize,
        name: *const u8,
        name_length: usize,
        paths: *const u8,
        paths_length: usize,
        ends: *const usize,
        ends_length: usize,
        refusals: *mut usize,
        refusals_length: usize,
        sides: *mut usize,
        sides_length: usize,
        lines: *mut usize,
        lines_length: usize,
    ) -> usize;
    fn plain_match(
        pattern: *const u8,
        pattern_length: usize,
        path: *const u8,
        path_length: usize,
    ) -> Matched;
    fn plain_normalise(
        path: *const u8,
        path_length: usize,
        buffer: *mut u8,
        room: usize,
    ) -> Normalised;
}

/// Decides whether the crawler `name` may fetch `path` under `file`, in the
/// dialect of this number: 0 for the RFC's, 1 for the draft's of 1996.
pub fn decide(dialect: usize, file: &[u8], name: &[u8], path: &[u8]) -> Decision {
    // SAFETY: the pointers and lengths are those of slices.
    unsafe {
        plain_decide(
            dialect,
            file.as_ptr(),
            file.len(),
            name.as_ptr(),
            name.len(),
            path.as_ptr(),
            path.len(),
        )
    }
}

/// Decides for each of the paths that are joined in `paths` and end at `ends`:
/// its refusal, side and deciding line go to its place in the three slices. The
/// call's refusal, 0 if answered; 100 if there is no memory for the rules.
#[allow(clippy::too_many_arguments)]
pub fn batch(
    dialect: usize,
    file: &[u8],
    name: &[u8],
    paths: &[u8],
    ends: &[usize],
    refusals: &mut [usize],
    sides: &mut [usize],
    lines: &mut [usize],
) -> usize {
    // SAFETY: the pointers and lengths are those of slices, and the three that
    // are written overlap nothing.
    unsafe {
        plain_batch(
            dialect,
            file.as_ptr(),
            file.len(),
            name.as_ptr(),
            name.len(),
            paths.as_ptr(),
            paths.len(),
            ends.as_ptr(),
            ends.len(),
            refusals.as_mut_ptr(),
            refusals.len(),
            sides.as_mut_ptr(),
            sides.len(),
            lines.as_mut_ptr(),
            lines.len(),
        )
    }
}

/// Matches one pattern against one path.
pub fn match_pattern(pattern: &[u8], path: &[u8]) -> Matched {
    // SAFETY: the pointers and lengths are those of slices.
    unsafe { plain_match(pattern.as_ptr(), pattern.len(), path.as_ptr(), path.len()) }
}

/// Normalises a path into the front of `buffer`.
pub fn normalise(path: &[u8], buffer: &mut [u8]) -> Normalised {
    let (start, room) = (buffer.as_mut_ptr(), buffer.len());
    // SAFETY: the pointers and lengths are those of slices, which don't overlap.
    unsafe { plain_normalise(path.as_ptr(), path.len(), start, room) }
}
