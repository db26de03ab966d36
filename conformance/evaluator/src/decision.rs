//! Deciding between the rules that apply.

use crate::dialect::Dialect;
use crate::first;
use crate::groups::{applying_rules, Rule};
use crate::heaviest;
use crate::lines::{lines, Side, Span};
use crate::matching::{Target, Weighed};
use crate::normal::Path;

/// An unrefused decision.
#[derive(Debug)]
pub(crate) struct Answer {
    pub(crate) disallow: bool,
    pub(crate) deciding: Option<Rule>,
    pub(crate) unread: usize,
    pub(crate) compared: usize,
    /// "at most the summed weights of those rules, times the octets of the
    /// normalised path"
    pub(crate) bound: usize,
}

/// A rule with its walk's answer.
pub(crate) struct Walked {
    pub(crate) rule: Rule,
    pub(crate) weighed: Weighed,
}

impl Walked {
    pub(crate) fn found(&self) -> bool {
        self.weighed.walk.found
    }
}

/// The rules that were walked, the one of them that decides, and whether the
/// path is disallowed by the dialect's definition.
pub(crate) struct Chosen {
    pub(crate) walked: Vec<Walked>,
    pub(crate) deciding: Option<Rule>,
    pub(crate) is_disallowed: bool,
}

impl Answer {
    /// The deciding rule's line, or 0.
    pub(crate) fn line(&self) -> usize {
        self.deciding.map_or(0, |rule| rule.line.0)
    }

    /// The deciding rule's raw pattern in the file.
    pub(crate) fn pattern(&self) -> Span {
        self.deciding.map_or(Span::NOTHING, |rule| rule.pattern)
    }
}

/// Answers a question that isn't refused.
pub(crate) fn answer(dialect: Dialect, file: &[u8], name: &[u8], path: &[u8]) -> Answer {
    let lines = lines(file);
    let unread = lines.iter().filter(|line| line.kind.is_unread()).count();
    let path = Path::new(path);
    // "/robots.txt, which is always allowed with no rule deciding", and
    // "/robots.txt stays allowed as in 01" (M-113)
    if path.is_robots_txt() {
        return Answer {
            disallow: false,
            deciding: None,
            unread,
            compared: 0,
            bound: 0,
        };
    }
    let length = path.octets().len();
    let rules = applying_rules(file, &lines, name);
    let target = Target::new(path);
    let chosen = match dialect {
        Dialect::Rfc9309 => heaviest::choose(file, rules, &target),
        Dialect::Draft1996 => first::choose(file, rules, &target),
    };
    let walks = chosen.walked.iter().map(|w| w.weighed);
    let compared = walks.clone().map(|w| w.walk.compared).sum();
    let summed: usize = walks.map(|w| w.weight.0).sum();
    let bound = summed * length;
    assert!(
        compared <= bound,
        "{compared} compared for a summed weight of {summed} and a path of {length}"
    );
    let side = chosen.deciding.map(|rule| rule.side);
    let disallow = side == Some(Side::Disallow);
    assert_eq!(
        disallow, chosen.is_disallowed,
        "the deciding rule and the definition disagree"
    );
    Answer {
        disallow,
        deciding: chosen.deciding,
        unread,
        compared,
        bound,
    }
}
