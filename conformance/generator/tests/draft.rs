//! The cases for the dialect of 1996: what occurs among them, and what must hold
//! of any evaluator of this dialect.

use std::collections::BTreeMap;

use evaluator::{decide, decide_in, match_pattern, normalise, Decision, DRAFT1996};
use generator::{DecideCase, SEED};

#[allow(dead_code)]
mod support;
use support::{told, Told};

const CASES: usize = 60_000;

/// A rule that applies, with its line and the number of its group among those
/// that apply.
struct Applying<'a> {
    line: usize,
    group: usize,
    rule: &'a Told,
}

/// A group: its agent lines and its rules, by line numbers.
#[derive(Default)]
struct Group<'a> {
    agents: Vec<&'a Told>,
    rules: Vec<(usize, &'a Told)>,
}

/// The rules that apply, of any readability, in file order.
fn applying<'a>(lines: &'a [Told], name: &[u8]) -> Vec<Applying<'a>> {
    let mut groups: Vec<Group> = Vec::new();
    for (number, line) in (1..).zip(lines) {
        if line.is_agent() {
            if groups.last().is_none_or(|group| !group.rules.is_empty()) {
                groups.push(Group::default());
            }
            groups.last_mut().expect("a group").agents.push(line);
        } else if line.is_rule() {
            if let Some(group) = groups.last_mut() {
                group.rules.push((number, line));
            }
        }
    }
    let of = |name: &[u8]| -> Vec<&Group> {
        let names = |group: &&Group| group.agents.iter().any(|agent| agent.names(name));
        groups.iter().filter(names).collect()
    };
    let chosen = match of(name) {
        named if named.is_empty() => of(b"*"),
        named => named,
    };
    let numbered = (1..).zip(chosen);
    let rules = numbered.flat_map(|(group, one)| {
        let of_group = move |&(line, rule)| Applying { line, group, rule };
        one.rules.iter().map(of_group)
    });
    rules.collect()
}

fn readable(rule: &Told) -> bool {
    rule.kind == 7 || rule.kind == 10
}

fn normal(path: &[u8]) -> Vec<u8> {
    let mut buffer = vec![0; 6_142];
    let answer = normalise(path, &mut buffer);
    buffer.truncate(answer.written);
    buffer
}

fn answered() -> impl Iterator<Item = (DecideCase, Decision)> {
    let cases = generator::draft_decide_cases(SEED, CASES)
        .chain(generator::decide_cases(SEED, 10_000))
        .chain(generator::derived_decide_cases(SEED, 10_000));
    cases.filter_map(|case| {
        let answer = decide_in(DRAFT1996, &case.file, &case.name, &case.path);
        (answer.refusal == 0).then_some((case, answer))
    })
}

/// What the RFC's dialect says of a pattern whose stars and dollars are written
/// as escapes: the walk of the draft's.
fn walk(pattern: &[u8], path: &[u8]) -> (bool, usize) {
    let mut escaped = Vec::new();
    for octet in pattern {
        match octet {
            b'*' => escaped.extend(b"%2A"),
            b'$' => escaped.extend(b"%24"),
            octet => escaped.push(*octet),
        }
    }
    if pattern.starts_with(b"*") {
        // "%" and "/" differ, and a longer pattern isn't compared
        let behind = [b"/", &escaped[3..]].concat();
        let length = generator::normal_length(&behind) + 2;
        return (false, usize::from(length <= normal(path).len()));
    }
    let answer = match_pattern(&escaped, path);
    assert_eq!(answer.refusal, 0, "{}", pattern.escape_ascii());
    (answer.found, answer.compared)
}

/// "the first match in file order decides", "no match allows", and the sum ends
/// with the deciding rule.
#[test]
fn the_first_match_decides() {
    for (case, answer) in answered() {
        let lines = told(&case.file);
        let mut expected = (0, false, 0);
        if normal(&case.path) != b"/robots.txt" {
            for one in applying(&lines, &case.name) {
                if !readable(one.rule) {
                    continue;
                }
                let (found, compared) = walk(&one.rule.value, &case.path);
                expected.2 += compared;
                if found {
                    (expected.0, expected.1) = (one.line, one.rule.kind == 10);
                    break;
                }
            }
        }
        let given = (answer.line, answer.disallow, answer.compared);
        assert_eq!(given, expected, "{case:?}");
    }
}

/// What stands behind the deciding line changes the unread count alone.
#[test]
fn what_follows_the_deciding_rule_changes_nothing() {
    for (case, answer) in answered().filter(|(_, answer)| answer.line > 0) {
        let end = answer.place + answer.length;
        let cut = decide_in(DRAFT1996, &case.file[..end], &case.name, &case.path);
        let unread = cut.unread;
        assert!(unread <= answer.unread, "{case:?}");
        assert_eq!(cut, Decision { unread, ..answer }, "{case:?}");
    }
}

/// "Reading lines and groups is shown once for both": the unread count is the
/// RFC's, and so is every answer where no pattern has a star or a dollar and
/// one rule applies.
#[test]
fn the_lines_are_read_as_in_the_rfc() {
    let mut alike = 0;
    for (case, answer) in answered() {
        let of_rfc = decide(&case.file, &case.name, &case.path);
        assert_eq!(answer.unread, of_rfc.unread, "{case:?}");
        let lines = told(&case.file);
        let rules = applying(&lines, &case.name);
        let plain = |one: &Applying| !one.rule.value.iter().any(|octet| b"*$".contains(octet));
        if rules.iter().filter(|one| readable(one.rule)).count() <= 1 && rules.iter().all(plain) {
            assert_eq!(answer, of_rfc, "{case:?}");
            alike += usize::from(answer.line > 0);
        }
    }
    assert!(alike > 2_000, "{alike}");
}

fn contains(text: &[u8], part: &[u8]) -> bool {
    text.windows(part.len()).any(|window| window == part)
}

/// What a generated case has, of those things that matter in this dialect.
fn rows(case: &DecideCase, answer: &Decision) -> Vec<&'static str> {
    let lines = told(&case.file);
    let rules = applying(&lines, &case.name);
    let of_rfc = decide(&case.file, &case.name, &case.path);
    let is_before = |one: &&Applying| answer.line == 0 || one.line < answer.line;
    let before: Vec<&Told> = rules.iter().filter(is_before).map(|one| one.rule).collect();
    let deciding = rules.iter().find(|one| one.line == answer.line);
    let pattern = deciding.map_or(b"".as_slice(), |one| &one.rule.value);
    let later = deciding.is_some_and(|one| one.group > 1 && rules[0].group < one.group);
    let tried = |test: fn(&Told) -> bool| before.iter().any(|rule| test(rule));
    let behind = rules
        .iter()
        .filter(|one| answer.line > 0 && one.line > answer.line);
    let other_side = |one: &Applying| (one.rule.kind == 10) != answer.disallow;
    let overruled = behind
        .filter(|one| readable(one.rule) && other_side(one))
        .any(|one| walk(&one.rule.value, &case.path).0);
    let is_robots = normal(&case.path) == b"/robots.txt";
    let occurs = [
        (answer.line == 0, "no rule decides"),
        (answer.line > 0 && answer.disallow, "disallow"),
        (answer.line > 0 && !answer.disallow, "allow by a rule"),
        (later, "the deciding rule in a later group"),
        (overruled, "a match of the other side behind it"),
        (contains(pattern, b"*"), "decided with a star"),
        (contains(pattern, b"$"), "decided with a dollar"),
        (pattern.ends_with(b"$"), "decided with a final dollar"),
        (contains(pattern, b"%2A"), "decided with %2A"),
        (contains(pattern, b"%2a"), "decided with %2a"),
        (contains(pattern, b"%24"), "decided with %24"),
        (contains(pattern, b"%7e"), "decided with %7e"),
        (contains(pattern, b"%7E"), "decided with %7E"),
        (
            pattern.len() > case.path.len(),
            "decided by a longer raw pattern",
        ),
        (
            tried(|rule| rule.value.starts_with(b"*")),
            "a star first, in vain",
        ),
        (tried(|rule| rule.value == b"/*"), "/* in vain"),
        (
            tried(|rule| rule.value.ends_with(b"$")),
            "a final dollar, in vain",
        ),
        (
            tried(|rule| rule.value.is_empty()),
            "an empty pattern before it",
        ),
        (
            tried(|rule| [8, 11].contains(&rule.kind)),
            "an unreadable one before it",
        ),
        (
            of_rfc.disallow != answer.disallow,
            "the RFC's answer is the other",
        ),
        (of_rfc.line != answer.line, "the RFC's line is another"),
        (of_rfc.compared > answer.compared, "the RFC's compares more"),
        (is_robots && !rules.is_empty(), "/robots.txt"),
        (answer.unread > 0, "unread lines"),
    ];
    let rows = occurs.into_iter().filter(|(occurs, _)| *occurs);
    rows.map(|(_, row)| row).collect()
}

/// How often each has to occur.
const LEAST: [(&str, usize); 24] = [
    ("no rule decides", 5_000),
    ("disallow", 15_000),
    ("allow by a rule", 15_000),
    ("the deciding rule in a later group", 2_000),
    ("a match of the other side behind it", 5_000),
    ("decided with a star", 5_000),
    ("decided with a dollar", 2_000),
    ("decided with a final dollar", 500),
    ("decided with %2A", 2_000),
    ("decided with %2a", 1_000),
    ("decided with %24", 2_000),
    ("decided with %7e", 500),
    ("decided with %7E", 500),
    ("decided by a longer raw pattern", 2_000),
    ("a star first, in vain", 2_000),
    ("/* in vain", 500),
    ("a final dollar, in vain", 2_000),
    ("an empty pattern before it", 1_000),
    ("an unreadable one before it", 2_000),
    ("the RFC's answer is the other", 5_000),
    ("the RFC's line is another", 10_000),
    ("the RFC's compares more", 10_000),
    ("/robots.txt", 200),
    ("unread lines", 10_000),
];

/// Everything that matters occurs, and "half of them at least" are decided by a
/// rule, refused ones counted.
#[test]
fn the_cases_hold_what_matters() {
    let mut seen: BTreeMap<&str, usize> = BTreeMap::new();
    let mut refused: BTreeMap<usize, usize> = BTreeMap::new();
    let mut decided = 0;
    for case in generator::draft_decide_cases(SEED, CASES) {
        let answer = decide_in(DRAFT1996, &case.file, &case.name, &case.path);
        decided += usize::from(answer.line > 0);
        *refused.entry(answer.refusal).or_default() += 1;
        if answer.refusal == 0 {
            for row in rows(&case, &answer) {
                *seen.entry(row).or_default() += 1;
            }
        }
    }
    println!("{decided} of {CASES} by a rule; refusals {refused:?}");
    println!("{seen:#?}");
    for (row, least) in LEAST {
        let count = seen.get(row).copied().unwrap_or(0);
        assert!(count >= least, "{row}: {count}, under {least}");
    }
    assert!(decided * 2 >= CASES, "{decided} of {CASES}");
    assert!([2, 3, 4, 5].iter().all(|number| refused[number] >= 100));
}

#[test]
fn the_cases_are_the_same_each_time() {
    let few: Vec<_> = generator::draft_decide_cases(SEED, 50).collect();
    let more: Vec<_> = generator::draft_decide_cases(SEED, 100).collect();
    assert_eq!(few, more[..50]);
    let other: Vec<_> = generator::draft_decide_cases(SEED + 1, 50).collect();
    assert_ne!(few, other);
}
