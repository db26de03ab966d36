//! From lines to groups, and the rules that apply to a crawler.

use crate::lines::{agent_name, Kind, Line, LineNumber, PatternState, Side, Span};

/// A rule of a group, of any readability.
#[derive(Debug, Clone, Copy)]
pub(crate) struct Rule {
    pub(crate) line: LineNumber,
    pub(crate) side: Side,
    pub(crate) state: PatternState,
    pub(crate) pattern: Span,
}

/// A group, with the names of its readable agent lines.
#[derive(Debug, Default)]
struct Group<'a> {
    names: Vec<&'a [u8]>,
    rules: Vec<Rule>,
}

impl Group<'_> {
    /// "names are equal, ignoring ASCII case, or they are different"
    fn names(&self, name: &[u8]) -> bool {
        self.names.iter().any(|one| one.eq_ignore_ascii_case(name))
    }
}

/// The readable rules that apply to the crawler, in the order of the file.
/// "Empty and unreadable patterns never match."
pub(crate) fn applying_rules(file: &[u8], lines: &[Line], name: &[u8]) -> Vec<Rule> {
    let groups = groups(file, lines);
    let chosen: &[u8] = if groups.iter().any(|group| group.names(name)) {
        name
    } else {
        b"*"
    };
    groups
        .iter()
        .filter(|group| group.names(chosen))
        .flat_map(|group| group.rules.iter().copied())
        .filter(|rule| rule.state == PatternState::Readable)
        .collect()
}

fn groups<'a>(file: &'a [u8], lines: &[Line]) -> Vec<Group<'a>> {
    let mut groups: Vec<Group> = Vec::new();
    for line in lines {
        match line.kind {
            Kind::Agent { readable, value } => {
                // "An agent line starts a new group if it is the first agent
                // line, or if a rule line of any readability stands between
                // it and the agent line before."
                if groups.last().is_none_or(|group| !group.rules.is_empty()) {
                    groups.push(Group::default());
                }
                if let (true, Some(group)) = (readable, groups.last_mut()) {
                    group.names.push(agent_name(value.of(file)));
                }
            }
            Kind::Rule {
                side,
                state,
                pattern,
            } => {
                // "before the first agent line, to none"
                if let Some(group) = groups.last_mut() {
                    group.rules.push(Rule {
                        line: line.number,
                        side,
                        state,
                        pattern,
                    });
                }
            }
            Kind::Blank | Kind::Noise | Kind::Other => {}
        }
    }
    groups
}
