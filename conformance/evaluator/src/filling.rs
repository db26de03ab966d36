//! Matching by its plain meaning: "some filling of its stars gives a
//! beginning of the path, or all of it where there is an end mark".
//!
//! All fillings are tried together. After each piece of the pattern there is
//! the set of all places of the path at which some filling of the pieces so
//! far can end: an octet moves every place that holds it one further, a star
//! adds every place beyond. A set is a row of bits, 97 words for the longest
//! path, so a file of 512,000 octets takes less than 150 million steps on
//! words. No run is cut, no try is made and nothing is counted here.

use crate::normal::{Path, Pattern, Piece};

const BITS: usize = 64;

/// A set of places of the path, 0 to its length included.
#[derive(Debug, Clone, PartialEq, Eq)]
struct Places(Vec<u64>);

impl Places {
    fn none(path_length: usize) -> Places {
        Places(vec![0; path_length / BITS + 1])
    }

    fn add(&mut self, place: usize) {
        self.0[place / BITS] |= 1 << (place % BITS);
    }

    fn has(&self, place: usize) -> bool {
        self.0[place / BITS] >> (place % BITS) & 1 == 1
    }

    /// Adds every place beyond the first one.
    fn add_all_beyond(&mut self, path_length: usize) {
        let mut beyond = 0;
        for word in &mut self.0 {
            // All bits from the lowest set one up.
            *word |= word.wrapping_neg() | beyond;
            if *word != 0 {
                beyond = u64::MAX;
            }
        }
        // No place lies after the path's end.
        if let Some(last) = self.0.last_mut() {
            *last &= u64::MAX >> (BITS - 1 - path_length % BITS);
        }
    }

    /// Keeps the places that are in `held` too, each moved one further.
    /// Says whether any is left.
    fn step_over(&mut self, held: &Places) -> bool {
        let mut carried = 0;
        let mut left = 0;
        for (word, held) in self.0.iter_mut().zip(&held.0) {
            let kept = *word & held;
            *word = kept << 1 | carried;
            carried = kept >> (BITS - 1);
            left |= *word;
        }
        left != 0
    }
}

/// A path, with the places at which it holds each octet, if it does.
pub(crate) struct PathPlaces {
    length: usize,
    holding: Vec<Option<Places>>,
}

impl PathPlaces {
    pub(crate) fn new(path: &Path) -> PathPlaces {
        let length = path.octets().len();
        let mut holding = vec![None; 256];
        for (place, octet) in path.octets().iter().enumerate() {
            holding[usize::from(*octet)]
                .get_or_insert_with(|| Places::none(length))
                .add(place);
        }
        PathPlaces { length, holding }
    }

    /// Whether some filling of the pattern's stars matches.
    pub(crate) fn some_filling_matches(&self, pattern: &Pattern) -> bool {
        let mut ends = Places::none(self.length);
        ends.add(0);
        for piece in pattern.pieces() {
            match *piece {
                Piece::Octet(octet) => match &self.holding[usize::from(octet)] {
                    Some(held) if ends.step_over(held) => {}
                    _ => return false,
                },
                // "A star stands for any number of octets of the normalised
                // path, none included".
                Piece::Star => ends.add_all_beyond(self.length),
            }
        }
        !pattern.has_end_mark() || ends.has(self.length)
    }
}
