//! What M-108 asks of the parts of a file, so that two of them may be exchanged.

use generator::Parts;

use crate::support::MARK;

pub const MARK_TRAVELS: &str = "a file begins with EF BB BF, and the mark isn't that";
pub const FRONT_NOT_ENDED: &str = "the front's last line isn't ended";
pub const FRONT_WITHOUT_RULE: &str = "the front's last group has no rule line";
pub const RULE_FIRST: &str = "an exchanged part begins with a rule line";
pub const AGENT_LAST: &str = "an exchanged part ends in an agent line";
pub const NOT_ENDED: &str = "an exchanged part's last line isn't ended";
pub const REST_RULE_FIRST: &str = "the rest begins with a rule line";

/// Those that the parts break. Lines that are neither an agent's nor a rule don't
/// matter, nor does a blank one for each CR LF.
pub fn broken(parts: &Parts) -> Vec<&'static str> {
    let begins_with_mark = [parts.file(), parts.exchanged()].map(|file| file.starts_with(MARK));
    let marked = parts.mark == MARK;
    let is_mark = marked || parts.mark.is_empty();
    let ended_front = parts.front.is_empty() || is_ended(&parts.front);
    let mut broken = vec![
        (!is_mark || begins_with_mark != [marked; 2], MARK_TRAVELS),
        (!ended_front, FRONT_NOT_ENDED),
        (is_agent(fields(&parts.front).last()), FRONT_WITHOUT_RULE),
        (is_rule(fields(&parts.rest).first()), REST_RULE_FIRST),
    ];
    for part in [&parts.one, &parts.two] {
        let fields = fields(part);
        broken.push((!is_agent(fields.first()), RULE_FIRST));
        broken.push((!is_rule(fields.last()), AGENT_LAST));
        broken.push((!is_ended(part), NOT_ENDED));
    }
    let names = broken.into_iter().filter(|(is_broken, _)| *is_broken);
    names.map(|(_, name)| name).collect()
}

/// The kinds of the agent lines and rule lines.
fn fields(part: &[u8]) -> Vec<usize> {
    let lines = part.split(|octet| is_ending(*octet));
    let kinds = lines.map(|line| evaluator::line_kind(line).kind);
    kinds.filter(|kind| *kind >= 4).collect()
}

fn is_agent(kind: Option<&usize>) -> bool {
    matches!(kind, Some(4 | 5))
}

fn is_rule(kind: Option<&usize>) -> bool {
    matches!(kind, Some(6..))
}

fn is_ended(part: &[u8]) -> bool {
    part.last().is_some_and(|octet| is_ending(*octet))
}

fn is_ending(octet: u8) -> bool {
    octet == b'\r' || octet == b'\n'
}
