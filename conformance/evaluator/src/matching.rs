//! One pattern against one path, by both methods at once.

use crate::dialect::Dialect;
use crate::filling::PathPlaces;
use crate::normal::{Path, Pattern, Weight};
use crate::walk::{walk, Walk};

/// A path that patterns are matched against.
pub(crate) struct Target {
    path: Path,
    places: PathPlaces,
}

/// A pattern's answer, with its weight.
#[derive(Debug, Clone, Copy)]
pub(crate) struct Weighed {
    pub(crate) walk: Walk,
    pub(crate) weight: Weight,
}

impl Target {
    pub(crate) fn new(path: Path) -> Target {
        let places = PathPlaces::new(&path);
        Target { path, places }
    }

    /// Walks the raw pattern and checks the walk. Every public function that
    /// matches goes through here.
    pub(crate) fn walk_checked(&self, dialect: Dialect, raw: &[u8]) -> Weighed {
        let pattern = Pattern::new(dialect, raw);
        let weight = pattern.weight();
        let walk = walk(&pattern, &self.path);
        assert_eq!(
            walk.found,
            self.places.some_filling_matches(&pattern),
            "the walk and the fillings disagree on {:?} and {:?}",
            String::from_utf8_lossy(raw),
            String::from_utf8_lossy(self.path.octets()),
        );
        assert!(
            walk.compared <= self.bound(weight),
            "{} compared for a weight of {} and a path of {}",
            walk.compared,
            weight.0,
            self.path.octets().len(),
        );
        if dialect == Dialect::Draft1996 {
            assert_eq!(
                walk,
                self.one_try(raw),
                "the walk and the one try disagree on {:?} and {:?}",
                String::from_utf8_lossy(raw),
                String::from_utf8_lossy(self.path.octets()),
            );
        }
        Weighed { walk, weight }
    }

    /// The walk of a pattern that "is one run without stars" (M-113), told from
    /// the octets that pattern and path have in common at their beginning: "A
    /// try that would pass p fails the rule at no cost", and one that differs
    /// has compared one pair more than these.
    fn one_try(&self, raw: &[u8]) -> Walk {
        let (run, path) = (Path::new(raw), self.path.octets());
        let run = run.octets();
        let both = run.iter().zip(path);
        let in_common = both.take_while(|(wanted, held)| wanted == held).count();
        let found = self.begins_with(raw);
        let compared = match (run.len() > path.len(), found) {
            (true, _) => 0,
            (_, true) => run.len(),
            (_, false) => in_common + 1,
        };
        Walk { found, compared }
    }

    /// Whether the draft's pattern is a beginning of the path: "the end of the
    /// path from the record is reached before a difference in octets is
    /// encountered" (004, 3.2.2).
    pub(crate) fn begins_with(&self, raw: &[u8]) -> bool {
        self.path.octets().starts_with(Path::new(raw).octets())
    }

    /// "at most the pattern's weight times the octets of that path,
    /// normalised"
    fn bound(&self, weight: Weight) -> usize {
        weight.0 * self.path.octets().len()
    }
}
