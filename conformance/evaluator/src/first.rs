//! Choosing the deciding rule as the draft of 1996 has it: the first match.

use crate::decision::{Chosen, Walked};
use crate::dialect::Dialect;
use crate::groups::Rule;
use crate::lines::Side;
use crate::matching::Target;

/// "the first match in file order decides", "rules after the deciding one add
/// nothing to the compared count", and "no match allows" (document 02, M-113).
pub(crate) fn choose(file: &[u8], rules: Vec<Rule>, target: &Target) -> Chosen {
    let mut walked = Vec::new();
    let mut deciding = None;
    for rule in &rules {
        let weighed = target.walk_checked(Dialect::Draft1996, rule.pattern.of(file));
        let rule = *rule;
        walked.push(Walked { rule, weighed });
        if weighed.walk.found {
            deciding = Some(rule);
            break;
        }
    }
    let is_disallowed = is_disallowed(file, &rules, target);
    Chosen {
        walked,
        deciding,
        is_disallowed,
    }
}

/// By the smallest line number among all rules of which the path has the pattern
/// as its beginning. No walk is made here.
fn is_disallowed(file: &[u8], rules: &[Rule], target: &Target) -> bool {
    rules
        .iter()
        .filter(|rule| target.begins_with(rule.pattern.of(file)))
        .min_by_key(|rule| rule.line)
        .is_some_and(|rule| rule.side == Side::Disallow)
}
