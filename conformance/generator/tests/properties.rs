//! What must hold of any evaluator, whatever its answers are.

use evaluator::{decide, line_kind, match_pattern, normalise, program, Decision};
use generator::{DecideCase, SEED};

mod support;
use support::{sides_changed, told, Told, MARK};

const CASES: usize = 20_000;

fn decide_case(case: &DecideCase) -> Decision {
    decide(&case.file, &case.name, &case.path)
}

/// Generated cases of both sorts that aren't refused.
fn answered() -> impl Iterator<Item = (DecideCase, Decision)> {
    unrefused(generator::decide_cases(SEED, CASES))
        .chain(unrefused(generator::derived_decide_cases(SEED, CASES)))
}

/// Those of the cases that aren't refused, with their decision.
fn unrefused(
    cases: impl Iterator<Item = DecideCase>,
) -> impl Iterator<Item = (DecideCase, Decision)> {
    cases
        .map(|case| {
            let decision = decide_case(&case);
            (case, decision)
        })
        .filter(|(_, decision)| decision.refusal == 0)
}

fn normal(path: &[u8]) -> Vec<u8> {
    let mut buffer = vec![0; 6_142];
    let answer = normalise(path, &mut buffer);
    assert_eq!(answer.refusal, 0);
    buffer.truncate(answer.written);
    buffer
}

/// The same cases every time, and a case doesn't depend on how many others
/// there are.
#[test]
fn the_generator_is_deterministic() {
    let few: Vec<_> = generator::decide_cases(SEED, 50).collect();
    let more: Vec<_> = generator::decide_cases(SEED, 100).collect();
    assert_eq!(few, more[..50]);
    let other: Vec<_> = generator::decide_cases(SEED + 1, 50).collect();
    assert_ne!(few, other);
    let dense: Vec<_> = generator::dense_decide_cases(SEED, 50).collect();
    let more: Vec<_> = generator::dense_decide_cases(SEED, 100).collect();
    assert_eq!(dense, more[..50]);
    let exchanges: Vec<_> = generator::exchange_cases(SEED, 50).collect();
    let more: Vec<_> = generator::exchange_cases(SEED, 100).collect();
    assert_eq!(exchanges, more[..50]);
    let lines: Vec<_> = generator::line_cases(SEED, 50).collect();
    let again: Vec<_> = generator::line_cases(SEED, 50).collect();
    assert_eq!(lines, again);
}

/// A deciding rule lies in the file, is of the decision's side, and matches.
#[test]
fn the_deciding_rule_is_one() {
    for (case, decision) in answered() {
        let lines = told(&case.file);
        if decision.line == 0 {
            assert!(!decision.disallow);
            assert_eq!((decision.place, decision.length), (0, 0));
            continue;
        }
        let pattern = &case.file[decision.place..decision.place + decision.length];
        let line = &lines[decision.line - 1];
        assert_eq!(line.value, pattern, "{case:?}");
        assert_eq!(line.kind, if decision.disallow { 10 } else { 7 });
        assert!(match_pattern(pattern, &case.path).found, "{case:?}");
    }
}

/// The unread count is that of the kinds 5, 8 and 11.
#[test]
fn the_unread_count_is_the_lines() {
    for (case, decision) in answered() {
        let unread = told(&case.file)
            .iter()
            .filter(|line| [5, 8, 11].contains(&line.kind))
            .count();
        assert_eq!(decision.unread, unread, "{case:?}");
    }
}

/// A decision's count is the sum of matching's counts over the rules that
/// apply.
#[test]
fn the_compared_count_is_the_matches() {
    for (case, decision) in answered() {
        let lines = told(&case.file);
        let sum: usize = applying(&lines, &case.name)
            .iter()
            .map(|rule| match_pattern(&rule.value, &case.path))
            .map(|answer| answer.compared)
            .sum();
        if normal(&case.path) == b"/robots.txt" {
            assert_eq!(decision.compared, 0);
        } else {
            assert_eq!(decision.compared, sum, "{case:?}");
        }
    }
}

/// A disallow decision is by a disallow rule that weighs more than any
/// matching allow rule, an allow decision by an allow rule that weighs as
/// much as any matching rule.
#[test]
fn the_heaviest_match_decides() {
    for (case, decision) in answered() {
        if normal(&case.path) == b"/robots.txt" {
            continue;
        }
        let lines = told(&case.file);
        let heaviest = |kind: usize| {
            applying(&lines, &case.name)
                .iter()
                .filter(|rule| rule.kind == kind)
                .filter(|rule| match_pattern(&rule.value, &case.path).found)
                .map(|rule| weight(&rule.value))
                .max()
        };
        let (allow, disallow) = (heaviest(7), heaviest(10));
        assert_eq!(decision.disallow, disallow > allow, "{case:?}");
        let deciding = match decision.line {
            0 => None,
            line => Some(weight(&lines[line - 1].value)),
        };
        assert_eq!(deciding, allow.max(disallow), "{case:?}");
    }
}

/// Files that are made from the path: in most several rules apply and match, so
/// that their weights, sides and lines decide.
#[test]
fn derived_files_have_several_matches() {
    let rows = [
        "decided by a rule",
        "several rules match",
        "rules of both sides match",
        "the heaviest on both sides are equal",
        "the heaviest on one side are equal",
        "several groups name the crawler",
        "a rule that begins with a star decides",
        "something stands behind the crawler's name",
    ];
    let mut counts = [0; 8];
    let mut cases = 0;
    for (case, decision) in unrefused(generator::derived_decide_cases(SEED, CASES)) {
        cases += 1;
        let lines = told(&case.file);
        let mut heaviest = [Vec::new(), Vec::new()];
        for rule in applying(&lines, &case.name) {
            if match_pattern(&rule.value, &case.path).found {
                heaviest[usize::from(rule.kind == 10)].push(weight(&rule.value));
            }
        }
        let [allow, disallow] = heaviest.map(|mut weights| {
            weights.sort_by(|one, other| other.cmp(one));
            weights
        });
        let equal = |weights: &[usize]| weights.len() > 1 && weights[0] == weights[1];
        let occurs = [
            decision.line > 0,
            allow.len() + disallow.len() > 1,
            !allow.is_empty() && !disallow.is_empty(),
            !allow.is_empty() && allow.first() == disallow.first(),
            equal(&allow) || equal(&disallow),
            groups_naming(&lines, &case.name) > 1,
            decision.line > 0 && lines[decision.line - 1].value.starts_with(b"*"),
            lines.iter().any(|line| line.names_and_more(&case.name)),
        ];
        for (count, occurs) in counts.iter_mut().zip(occurs) {
            *count += usize::from(occurs);
        }
    }
    for ((row, count), least) in rows
        .iter()
        .zip(counts)
        .zip([60, 40, 30, 10, 15, 30, 10, 20])
    {
        println!("{count:>8} of {cases}  {row}");
        assert!(100 * count > least * cases, "{row}: {count} of {cases}");
    }
}

/// Patterns that are made from the path: many begin with a star, and of those
/// many match and many don't.
#[test]
fn derived_patterns_begin_with_a_star() {
    let mut counts = [0; 2];
    for case in generator::derived_match_cases(SEED, CASES) {
        let answer = match_pattern(&case.pattern, &case.path);
        if answer.refusal == 0 && case.pattern.starts_with(b"*") {
            counts[usize::from(answer.found)] += 1;
        }
    }
    let [unfound, found] = counts;
    println!("{found} found and {unfound} not found, of {CASES}");
    assert!(15 * found > CASES && 15 * unfound > CASES);
}

/// How many groups name this one.
fn groups_naming(lines: &[Told], name: &[u8]) -> usize {
    let mut groups = 0;
    let mut named = false;
    let mut rule_before = true;
    for line in lines
        .iter()
        .filter(|line| line.is_agent() || line.is_rule())
    {
        named &= !(line.is_agent() && rule_before);
        if line.names(name) && !named {
            named = true;
            groups += 1;
        }
        rule_before = line.is_rule();
    }
    groups
}

/// A pattern's weight: a star weighs 1, and in a path it is three octets.
fn weight(pattern: &[u8]) -> usize {
    let (part, end_mark) = match pattern {
        [part @ .., b'$'] => (part, 1),
        _ => (pattern, 0),
    };
    let stars = part.iter().filter(|octet| **octet == b'*').count();
    generator::normal_length(part) - 2 * stars + end_mark
}

/// The readable rules that apply to the crawler.
fn applying<'a>(lines: &'a [Told], name: &[u8]) -> Vec<&'a Told> {
    rules_for(lines, name)
        .or_else(|| rules_for(lines, b"*"))
        .unwrap_or_default()
}

/// The readable rules of the groups that name this one, if any does.
fn rules_for<'a>(lines: &'a [Told], name: &[u8]) -> Option<Vec<&'a Told>> {
    let mut rules = None;
    let mut named = false;
    let mut rule_before = true;
    for line in lines {
        if line.is_agent() {
            named = line.names(name) || (named && !rule_before);
            rule_before = false;
        } else if line.is_rule() {
            rule_before = true;
        }
        if named {
            let rules = rules.get_or_insert_with(Vec::new);
            if [7, 10].contains(&line.kind) {
                rules.push(line);
            }
        }
    }
    rules
}

/// With the sides of all rules changed over, the counts stay and the answer
/// turns, unless the sides tie; then it is allow both times.
#[test]
fn changing_the_sides_over() {
    for (case, decision) in answered() {
        let file = sides_changed(&told(&case.file));
        let changed = decide(&file, &case.name, &case.path);
        assert_eq!(changed.unread, decision.unread, "{case:?}");
        assert_eq!(changed.compared, decision.compared, "{case:?}");
        assert_eq!(changed.length == 0, decision.length == 0, "{case:?}");
        if decision.line == 0 {
            assert_eq!((changed.line, changed.disallow), (0, false), "{case:?}");
        } else if changed.disallow != decision.disallow {
            assert_eq!(changed.line, decision.line, "{case:?}");
        } else {
            assert!(!decision.disallow, "{case:?}");
            assert_ne!(changed.line, decision.line, "{case:?}");
        }
    }
}

/// The letter case of the name is nothing, and a further comment line too.
#[test]
fn changes_that_change_nothing() {
    for (mut case, decision) in answered() {
        for octet in &mut case.name {
            *octet ^= if octet.is_ascii_alphabetic() { 0x20 } else { 0 };
        }
        assert_eq!(decide_case(&case), decision, "{case:?}");
        case.file.extend(b"\n# allow: /\n");
        assert_eq!(decide_case(&case), decision, "{case:?}");
    }
}

/// A normalised path is at most 3 times as long, less 2, holds only what it
/// may, and normalises to itself; it answers for the path.
#[test]
fn normalised_paths() {
    for (mut case, decision) in answered() {
        let once = normal(&case.path);
        assert!(once.len() <= 3 * case.path.len() - 2);
        assert!(once.iter().all(|octet| (0x21..0x7F).contains(octet)));
        assert!(!once.iter().any(|octet| b"*$#".contains(octet)));
        if once.len() > 2_048 {
            continue;
        }
        assert_eq!(normal(&once), once, "{case:?}");
        case.path = once;
        assert_eq!(decide_case(&case), decision, "{case:?}");
    }
}

/// The buffer's front is the normalised path; its tail stays, and all of it
/// if refused.
#[test]
fn the_lent_buffer() {
    for case in generator::normalise_edges()
        .into_iter()
        .chain(generator::normalise_cases(SEED, CASES))
    {
        let mut zeros = vec![0; case.room];
        let mut ones = vec![0xFF; case.room];
        let answer = normalise(&case.path, &mut zeros);
        assert_eq!(normalise(&case.path, &mut ones), answer);
        assert!(answer.refusal == 0 || answer.written == 0);
        assert_eq!(zeros[..answer.written], ones[..answer.written]);
        assert!(zeros[answer.written..].iter().all(|octet| *octet == 0));
        assert!(ones[answer.written..].iter().all(|octet| *octet == 0xFF));
    }
}

/// A file of one rule decides as its pattern matches.
#[test]
fn matching_and_deciding_agree() {
    for case in generator::match_cases(SEED, CASES) {
        let answer = match_pattern(&case.pattern, &case.path);
        assert!(answer.refusal == 0 || !answer.found && answer.compared == 0);
        if answer.refusal != 0 || normal(&case.path) == b"/robots.txt" {
            continue;
        }
        let file = [b"user-agent:*\ndisallow:", case.pattern.as_slice()].concat();
        let decision = decide(&file, b"a", &case.path);
        assert_eq!(decision.disallow, answer.found, "{case:?}");
        assert_eq!(decision.compared, answer.compared, "{case:?}");
        // A star more at the end of a pattern without an end mark adds nothing.
        if !case.pattern.ends_with(b"$") {
            let longer = [case.pattern.as_slice(), b"*"].concat();
            assert_eq!(match_pattern(&longer, &case.path), answer, "{case:?}");
        }
    }
}

/// A star in front of a pattern: it stays readable, and what matched matches.
/// In front of another star it changes nothing. A pattern that begins with
/// neither "/" nor a star is unreadable, and a star in front may mend it.
#[test]
fn a_star_in_front() {
    let cases =
        generator::match_cases(SEED, CASES).chain(generator::derived_match_cases(SEED, CASES));
    let mut mended = 0;
    for case in cases {
        let answer = match_pattern(&case.pattern, &case.path);
        let longer = [b"*", case.pattern.as_slice()].concat();
        let with_star = match_pattern(&longer, &case.path);
        match case.pattern.first() {
            Some(b'*') => assert_eq!(with_star, answer, "{case:?}"),
            Some(b'/') => {
                assert_eq!(with_star.refusal, answer.refusal, "{case:?}");
                assert!(with_star.found || !answer.found, "{case:?}");
            }
            _ => {
                assert_ne!(answer.refusal, 0, "{case:?}");
                mended += usize::from(with_star.refusal == 0);
            }
        }
    }
    assert!(mended > CASES / 100, "{mended}");
}

/// The file with something more behind the agents that are chosen, line by line.
fn lengthened(lines: &[Told], is_chosen: impl Fn(&Told) -> bool) -> Vec<u8> {
    let mut file = MARK.to_vec();
    for line in lines {
        if is_chosen(line) {
            file.extend([b"user-agent:", line.value.as_slice(), b"/2.1 x"].concat());
        } else {
            file.extend(&line.line);
        }
        file.push(b'\n');
    }
    file
}

/// What stands behind a name changes nothing; behind "*" it makes the line
/// unread, and then it names nobody.
#[test]
fn something_behind_the_agents() {
    let (mut by_name, mut by_star) = (0, 0);
    for (case, decision) in answered() {
        let lines = told(&case.file);
        let asked = |file: Vec<u8>| {
            let decision = decide(&file, &case.name, &case.path);
            (decision.unread, (decision.line, decision.compared))
        };
        let before = (decision.unread, (decision.line, decision.compared));
        let is_star = |line: &Told| line.names(b"*");
        let named = lengthened(&lines, |line| line.kind == 4 && !is_star(line));
        assert_eq!(asked(named), before, "{case:?}");
        let (unread, rest) = asked(lengthened(&lines, is_star));
        let stars = lines.iter().filter(|line| is_star(line)).count();
        assert_eq!(unread, decision.unread + stars, "{case:?}");
        if groups_naming(&lines, &case.name) > 0 {
            assert_eq!(rest, before.1, "{case:?}");
            by_name += usize::from(decision.line > 0);
        } else {
            assert_eq!(rest, (0, 0), "{case:?}");
            by_star += usize::from(decision.line > 0);
        }
    }
    println!("{by_name} decided in a named group and {by_star} in one of \"*\"");
    assert!(
        by_name > CASES / 4 && by_star > CASES / 20,
        "{by_name}, {by_star}"
    );
}

/// A line's value has no spaces at its ends, and nothing of it is comment.
#[test]
fn values_of_lines() {
    for case in generator::line_cases(SEED, CASES) {
        let answer = line_kind(&case.line);
        let value = &case.line[answer.place..answer.place + answer.length];
        assert!(!value.contains(&b'#'));
        for end in [value.first(), value.last()].into_iter().flatten() {
            assert!(*end != b' ' && *end != b'\t');
        }
        match answer.kind {
            4 | 7 | 8 | 10 | 11 => assert!(answer.length > 0),
            5 => assert!(answer.length > 0 || answer.place == 0),
            _ => assert_eq!((answer.place, answer.length), (0, 0)),
        }
        // A comment more changes nothing.
        if answer.refusal == 0 {
            let longer = [case.line.as_slice(), b" #:/"].concat();
            assert_eq!(line_kind(&longer), answer, "{case:?}");
        }
    }
}

/// The program prints the decision.
#[test]
fn the_program_prints_the_decision() {
    for case in generator::program_cases(SEED, CASES) {
        let mut parts = case.input.splitn(3, |octet| *octet == b'\n');
        let mut part = || parts.next().unwrap_or_default();
        let (name, path, file) = (part(), part(), part());
        let decision = decide(file, name, path);
        let expected = if case.input.len() > 65_536 {
            "refused 7\n".to_string()
        } else if decision.refusal != 0 {
            format!("refused {}\n", decision.refusal)
        } else {
            format!(
                "{} line {} unread {} compared {}\n",
                ["allow", "disallow"][usize::from(decision.disallow)],
                decision.line,
                decision.unread,
                decision.compared
            )
        };
        assert_eq!(program(&case.input), expected.as_bytes(), "{case:?}");
    }
}
