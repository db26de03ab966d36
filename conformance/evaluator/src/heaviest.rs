//! Choosing the deciding rule as the RFC has it: the heaviest match.

use std::cmp::Reverse;

use crate::decision::{Chosen, Walked};
use crate::dialect::Dialect;
use crate::groups::Rule;
use crate::lines::Side;
use crate::matching::Target;
use crate::normal::Weight;

/// "A decision's compared count is the sum over all applying readable rules,
/// each walked".
pub(crate) fn choose(file: &[u8], rules: Vec<Rule>, target: &Target) -> Chosen {
    let walked: Vec<Walked> = rules
        .into_iter()
        .map(|rule| Walked {
            rule,
            weighed: target.walk_checked(Dialect::Rfc9309, rule.pattern.of(file)),
        })
        .collect();
    Chosen {
        deciding: deciding_rule(&walked),
        is_disallowed: is_disallowed(&walked),
        walked,
    }
}

/// "the heaviest match, allow before disallow at equal weight, then the
/// earliest line"
fn deciding_rule(walked: &[Walked]) -> Option<Rule> {
    walked
        .iter()
        .filter(|w| w.found())
        .max_by_key(|w| {
            (
                w.weighed.weight,
                w.rule.side == Side::Allow,
                Reverse(w.rule.line),
            )
        })
        .map(|w| w.rule)
}

/// "some disallow rule matches and weighs more than every allow rule that
/// matches"
fn is_disallowed(walked: &[Walked]) -> bool {
    let matching = |side: Side| -> Vec<Weight> {
        walked
            .iter()
            .filter(|w| w.found() && w.rule.side == side)
            .map(|w| w.weighed.weight)
            .collect()
    };
    let allows = matching(Side::Allow);
    matching(Side::Disallow)
        .iter()
        .any(|disallow| allows.iter().all(|allow| disallow > allow))
}
