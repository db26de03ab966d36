//! Plain C, loaded from its archive.

use plain::{Decision, Matched, Normalised, ARCHIVE};

use crate::loaded::{function, Handle};

type Start = *const u8;
type OfDecision = unsafe extern "C" fn(usize, Start, usize, Start, usize, Start, usize) -> Decision;
type OfMatch = unsafe extern "C" fn(Start, usize, Start, usize) -> Matched;
type OfPath = unsafe extern "C" fn(Start, usize, *mut u8, usize) -> Normalised;

pub struct LoadedPlain {
    decide: OfDecision,
    match_pattern: OfMatch,
    normalise: OfPath,
}

impl LoadedPlain {
    pub fn decide(&self, dialect: usize, file: &[u8], name: &[u8], path: &[u8]) -> Decision {
        let (file, file_length) = (file.as_ptr(), file.len());
        let (name, name_length) = (name.as_ptr(), name.len());
        // SAFETY: the pointers and lengths are those of slices.
        unsafe {
            (self.decide)(
                dialect,
                file,
                file_length,
                name,
                name_length,
                path.as_ptr(),
                path.len(),
            )
        }
    }

    pub fn match_pattern(&self, pattern: &[u8], path: &[u8]) -> Matched {
        let (start, length) = (pattern.as_ptr(), pattern.len());
        // SAFETY: both pointers and lengths are those of slices.
        unsafe { (self.match_pattern)(start, length, path.as_ptr(), path.len()) }
    }

    pub fn normalise(&self, path: &[u8], buffer: &mut [u8]) -> Normalised {
        let (start, room) = (buffer.as_mut_ptr(), buffer.len());
        // SAFETY: both pointers and lengths are those of slices.
        unsafe { (self.normalise)(path.as_ptr(), path.len(), start, room) }
    }
}

/// The functions of plain C that is loaded.
pub fn plain_c(handle: Handle) -> LoadedPlain {
    // SAFETY: the object is loaded, and plain.h gives the functions these types.
    unsafe {
        LoadedPlain {
            decide: function(handle, c"plain_decide", ARCHIVE),
            match_pattern: function(handle, c"plain_match", ARCHIVE),
            normalise: function(handle, c"plain_normalise", ARCHIVE),
        }
    }
}
