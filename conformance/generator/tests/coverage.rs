//! Runs the cases through the evaluator and counts what occurs. A row of the
//! table that stays at 0, or under the number it wants, is a failure.

use std::collections::HashMap;

use evaluator::{decide, line_kind, match_pattern, normalise, program};
use evaluator::{Decision, Matched};
use generator::{DecideCase, MatchCase, SEED};

#[path = "coverage/dense.rs"]
mod dense;
mod support;
use support::{name_of, sides_changed, told, Told, MARK};

const DECIDE_CASES: usize = 60_000;
const MATCH_CASES: usize = 60_000;
const NORMALISE_CASES: usize = 30_000;
const LINE_CASES: usize = 30_000;
const PROGRAM_CASES: usize = 20_000;

/// A row of a table: what is counted, how often it occurs, and how often it
/// has to.
struct Row {
    what: String,
    count: usize,
    least: usize,
}

/// A table of counts; its rows are set from the start.
struct Table {
    title: &'static str,
    rows: Vec<Row>,
    places: HashMap<String, usize>,
    cases: usize,
}

impl Table {
    fn new(title: &'static str) -> Table {
        Table {
            title,
            rows: Vec::new(),
            places: HashMap::new(),
            cases: 0,
        }
    }

    fn expect<T: ToString>(self, rows: impl IntoIterator<Item = T>) -> Table {
        self.expect_least(rows.into_iter().map(|row| (row, 1)))
    }

    /// Rows with the number that each wants.
    fn expect_least<T: ToString>(mut self, rows: impl IntoIterator<Item = (T, usize)>) -> Table {
        for (row, least) in rows {
            let what = row.to_string();
            self.places.insert(what.clone(), self.rows.len());
            let count = 0;
            self.rows.push(Row { what, count, least });
        }
        self
    }

    fn expect_refusals(self, numbers: &[usize]) -> Table {
        self.expect(numbers.iter().map(|number| format!("refusal {number}")))
    }

    fn add(&mut self, row: &str) {
        let place = self.places.get(row);
        let place = place.unwrap_or_else(|| panic!("{}: no row {row}", self.title));
        self.rows[*place].count += 1;
    }

    fn add_if(&mut self, occurs: bool, row: &str) {
        if occurs {
            self.add(row);
        }
    }

    fn add_refusal(&mut self, number: usize) {
        self.add(&format!("refusal {number}"));
    }

    fn add_forms(&mut self, forms: &[(&str, &[u8])], text: &[u8]) {
        for (row, form) in forms {
            self.add_if(contains(text, form), row);
        }
    }

    /// Prints the table and fails if a row is under the number it wants.
    fn finish(&self, octets: &[&Octets]) {
        let mut text = format!("{}: {} cases\n", self.title, self.cases);
        for Row { what, count, .. } in &self.rows {
            text += &format!("  {count:>8}  {what}\n");
        }
        for octets in octets {
            text += &format!(
                "  {:>8}  rarest of the 256 octets in {}\n",
                octets.rarest(),
                octets.what
            );
        }
        print!("{text}");
        for Row { what, count, least } in &self.rows {
            let title = self.title;
            assert!(count >= least, "{title}: {what}: {count}, under {least}");
        }
        for octets in octets {
            assert!(octets.rarest() > 0, "an octet is never in {}", octets.what);
        }
    }
}

/// How many inputs of one sort hold each octet.
struct Octets {
    what: &'static str,
    counts: [usize; 256],
}

impl Octets {
    fn of(what: &'static str) -> Octets {
        Octets {
            what,
            counts: [0; 256],
        }
    }

    fn add(&mut self, text: &[u8]) {
        let mut held = [false; 256];
        for octet in text {
            held[usize::from(*octet)] = true;
        }
        for (count, held) in self.counts.iter_mut().zip(held) {
            *count += usize::from(held);
        }
    }

    fn rarest(&self) -> usize {
        self.counts.iter().copied().min().unwrap_or(0)
    }
}

fn contains(text: &[u8], form: &[u8]) -> bool {
    text.windows(form.len()).any(|window| window == form)
}

/// Forms of escapes.
const ESCAPES: [(&str, &[u8]); 12] = [
    ("escape %41", b"%41"),
    ("escape %2f", b"%2f"),
    ("escape %2F", b"%2F"),
    ("escape %2A", b"%2A"),
    ("escape %2a", b"%2a"),
    ("escape %24", b"%24"),
    ("escape %25", b"%25"),
    ("escape %7e", b"%7e"),
    ("escape %zz", b"%zz"),
    ("escape %%", b"%%"),
    ("escape %E3%83%84", b"%E3%83%84"),
    ("escape %4%", b"%4%"),
];

/// Characters, well- and ill-formed.
const CHARACTERS: [(&str, &[u8]); 12] = [
    ("two octets C3 A9", b"\xC3\xA9"),
    ("three octets E3 83 84", b"\xE3\x83\x84"),
    ("four octets F0 90 80 80", b"\xF0\x90\x80\x80"),
    ("last below surrogates ED 9F BF", b"\xED\x9F\xBF"),
    ("last character F4 8F BF BF", b"\xF4\x8F\xBF\xBF"),
    ("overlong C0 AF", b"\xC0\xAF"),
    ("overlong E0 80 80", b"\xE0\x80\x80"),
    ("overlong F0 8F BF BF", b"\xF0\x8F\xBF\xBF"),
    ("surrogate ED A0 80", b"\xED\xA0\x80"),
    ("too high F4 90 80 80", b"\xF4\x90\x80\x80"),
    ("cut short C3 28", b"\xC3\x28"),
    ("tail alone 61 80", b"\x61\x80"),
];

fn names_of<'a>(forms: &'a [(&'a str, &[u8])]) -> impl Iterator<Item = &'a str> + 'a {
    forms.iter().map(|(name, _)| *name)
}

const FILE_ROWS: [&str; 13] = [
    "ending CR",
    "ending LF",
    "ending CR LF",
    "endings LF CR",
    "no ending at the end",
    "an ending at the end",
    "mark at the front",
    "mark doubled",
    "mark cut to EF",
    "mark cut to EF BB",
    "mark in the middle",
    "empty file",
    "mark alone",
];

fn count_file(table: &mut Table, file: &[u8]) {
    let before = |pair: &[u8]| contains(file, pair);
    table.add_if(before(b"\r\n"), "ending CR LF");
    table.add_if(before(b"\n\r"), "endings LF CR");
    table.add_if(
        file.windows(2).any(|w| w[0] == b'\r' && w[1] != b'\n'),
        "ending CR",
    );
    table.add_if(
        file.windows(2).any(|w| w[0] != b'\r' && w[1] == b'\n'),
        "ending LF",
    );
    match file.last() {
        None => table.add("empty file"),
        Some(b'\r' | b'\n') => table.add("an ending at the end"),
        Some(_) => table.add("no ending at the end"),
    }
    let whole = file.starts_with(MARK);
    table.add_if(whole, "mark at the front");
    table.add_if(file == MARK, "mark alone");
    table.add_if(
        whole && file[MARK.len()..].starts_with(MARK),
        "mark doubled",
    );
    table.add_if(!whole && file.starts_with(&MARK[..2]), "mark cut to EF BB");
    table.add_if(
        file.starts_with(&MARK[..1]) && !file.starts_with(&MARK[..2]),
        "mark cut to EF",
    );
    table.add_if(
        !file.is_empty() && contains(&file[1..], MARK),
        "mark in the middle",
    );
}

const GROUP_ROWS: [&str; 13] = [
    "a named group chosen",
    "\"*\" chosen",
    "no group chosen",
    "a named group beside \"*\"",
    "the name in another letter case",
    "the name twice in one group",
    "the name in two groups",
    "\"*\" in two groups",
    "a named group without rules",
    "a rule before the first agent line",
    "an unreadable rule alone divides groups",
    "an empty rule alone divides groups",
    "an unreadable agent line joins a group",
];

/// How often what is behind a name, or belongs to it, has to occur.
const NAME_ROWS: [(&str, usize); 3] = [
    ("something behind the name", 8_000),
    ("always something behind the name", 4_000),
    ("a longer name", 800),
];

/// The line's name begins with this one and is longer.
fn begins_with(line: &Told, name: &[u8]) -> bool {
    let front = line.name().get(..name.len());
    line.name().len() > name.len() && front.is_some_and(|front| front.eq_ignore_ascii_case(name))
}

/// Groups as lists of agent lines and rule lines.
fn groups(lines: &[Told]) -> Vec<(Vec<&Told>, Vec<&Told>)> {
    let mut groups: Vec<(Vec<&Told>, Vec<&Told>)> = Vec::new();
    for line in lines {
        if line.is_agent() {
            match groups.last_mut() {
                Some((agents, rules)) if rules.is_empty() => agents.push(line),
                _ => groups.push((vec![line], Vec::new())),
            }
        } else if line.is_rule() {
            if let Some((_, rules)) = groups.last_mut() {
                rules.push(line);
            }
        }
    }
    groups
}

fn count_groups(table: &mut Table, case: &DecideCase, lines: &[Told]) {
    let groups = groups(lines);
    let naming = |name: &[u8]| -> usize {
        groups
            .iter()
            .filter(|(agents, _)| agents.iter().any(|agent| agent.names(name)))
            .count()
    };
    let (named, everyone) = (naming(&case.name), naming(b"*"));
    table.add(match (named, everyone) {
        (0, 0) => "no group chosen",
        (0, _) => "\"*\" chosen",
        _ => "a named group chosen",
    });
    table.add_if(named > 0 && everyone > 0, "a named group beside \"*\"");
    table.add_if(named > 1, "the name in two groups");
    table.add_if(everyone > 1, "\"*\" in two groups");
    table.add_if(
        lines
            .iter()
            .any(|line| line.names(&case.name) && line.name() != case.name),
        "the name in another letter case",
    );
    let with_more = |line: &Told| line.names_and_more(&case.name);
    table.add_if(lines.iter().any(with_more), "something behind the name");
    table.add_if(
        named > 0
            && !lines
                .iter()
                .any(|line| line.value.eq_ignore_ascii_case(&case.name)),
        "always something behind the name",
    );
    table.add_if(
        named == 0 && lines.iter().any(|line| begins_with(line, &case.name)),
        "a longer name",
    );
    let first_rule = lines.iter().position(Told::is_rule);
    let first_agent = lines.iter().position(Told::is_agent);
    table.add_if(
        first_rule.is_some_and(|rule| first_agent.is_some_and(|agent| rule < agent)),
        "a rule before the first agent line",
    );
    for (index, (agents, rules)) in groups.iter().enumerate() {
        let times = agents.iter().filter(|a| a.names(&case.name)).count();
        table.add_if(times > 1, "the name twice in one group");
        table.add_if(times > 0 && rules.is_empty(), "a named group without rules");
        table.add_if(
            agents[1..].iter().any(|agent| agent.kind == 5),
            "an unreadable agent line joins a group",
        );
        let another_follows = index + 1 < groups.len();
        let all = |kinds: [usize; 2]| {
            another_follows && rules.iter().all(|rule| kinds.contains(&rule.kind))
        };
        table.add_if(all([8, 11]), "an unreadable rule alone divides groups");
        table.add_if(all([6, 9]), "an empty rule alone divides groups");
    }
}

/// How patterns begin, and how often they have to in deciding, matching and
/// lines.
const FIRST_ROWS: [(&str, [usize; 3]); 4] = [
    ("a star first", [35_000, 8_000, 1_800]),
    ("stars alone, and an end mark perhaps", [9_000, 2_200, 450]),
    ("\"$\" first, unreadable", [1_800, 400, 90]),
    ("a star, then ill-formed octets", [2_500, 600, 450]),
];

fn first_rows(of: usize) -> impl Iterator<Item = (&'static str, usize)> {
    FIRST_ROWS
        .into_iter()
        .map(move |(row, least)| (row, least[of]))
}

fn count_first(table: &mut Table, readable: bool, pattern: &[u8]) {
    let [star_first, stars_alone, dollar_first, ill_formed] = FIRST_ROWS.map(|(row, _)| row);
    let star = pattern.starts_with(b"*");
    let part = pattern.strip_suffix(b"$").unwrap_or(pattern);
    let alone = part.iter().all(|octet| *octet == b'*');
    table.add_if(readable && star, star_first);
    table.add_if(readable && star && alone, stars_alone);
    table.add_if(!readable && pattern.starts_with(b"$"), dollar_first);
    let is_ill_formed = std::str::from_utf8(pattern).is_err();
    table.add_if(!readable && star && is_ill_formed, ill_formed);
}

/// The rules of a file, and how the one begins that decided.
fn count_rules(table: &mut Table, decision: &Decision, lines: &[Told]) {
    for line in lines.iter().filter(|line| line.is_rule()) {
        table.add_if([7, 10].contains(&line.kind), "readable rules");
        count_first(table, [7, 10].contains(&line.kind), &line.value);
    }
    let star_decides = decision.line > 0 && lines[decision.line - 1].value.starts_with(b"*");
    if star_decides && decision.disallow {
        table.add("disallow by a star first");
    } else if star_decides {
        table.add("allow by a star first");
    }
}

#[test]
fn deciding() {
    let mut table = Table::new("decide")
        .expect_refusals(&[0, 1, 2, 3, 4, 5])
        .expect([
            "always allowed: /robots.txt",
            "the same in another spelling",
            "allow, nothing compared",
            "allow, compared but no match",
            "allow by a rule",
            "disallow by a rule",
            "a tie between the sides",
            "unread lines",
            "compared more than 1,000",
            "compared more than 1,000,000",
            "readable rules",
        ])
        .expect_least(first_rows(0))
        .expect_least([
            ("allow by a star first", 1_300),
            ("disallow by a star first", 2_200),
        ])
        .expect(FILE_ROWS)
        .expect(GROUP_ROWS)
        .expect_least(NAME_ROWS)
        .expect(names_of(&ESCAPES))
        .expect(names_of(&CHARACTERS));
    let mut files = Octets::of("files");
    let mut names = Octets::of("names");
    let mut paths = Octets::of("paths");
    let cases = generator::decide_edges()
        .into_iter()
        .chain(generator::decide_cases(SEED, DECIDE_CASES));
    for case in cases {
        table.cases += 1;
        files.add(&case.file);
        names.add(&case.name);
        paths.add(&case.path);
        let decision = decide(&case.file, &case.name, &case.path);
        table.add_refusal(decision.refusal);
        table.add_if(decision.compared > 1_000, "compared more than 1,000");
        table.add_if(
            decision.compared > 1_000_000,
            "compared more than 1,000,000",
        );
        if decision.refusal != 0 || case.file.len() > 100_000 {
            continue;
        }
        count_file(&mut table, &case.file);
        table.add_forms(&ESCAPES, &case.file);
        table.add_forms(&CHARACTERS, &case.file);
        table.add_if(decision.unread > 0, "unread lines");
        let lines = told(&case.file);
        count_groups(&mut table, &case, &lines);
        count_rules(&mut table, &decision, &lines);
        if normal(&case.path) == b"/robots.txt" {
            table.add("always allowed: /robots.txt");
            table.add_if(case.path != b"/robots.txt", "the same in another spelling");
            continue;
        }
        let by_rule = decision.line > 0;
        table.add(match (decision.disallow, by_rule) {
            (true, _) => "disallow by a rule",
            (false, true) => "allow by a rule",
            (false, false) if decision.compared == 0 => "allow, nothing compared",
            (false, false) => "allow, compared but no match",
        });
        // Allow wins with the sides changed over too: equal weights.
        let changed = decide(&sides_changed(&lines), &case.name, &case.path);
        table.add_if(
            by_rule && !decision.disallow && !changed.disallow,
            "a tie between the sides",
        );
    }
    table.finish(&[&files, &names, &paths]);
}

fn normal(path: &[u8]) -> Vec<u8> {
    let mut buffer = vec![0; 6_142];
    let written = normalise(path, &mut buffer).written;
    buffer.truncate(written);
    buffer
}

fn count_pattern(table: &mut Table, case: &MatchCase) {
    let pattern = case.pattern.as_slice();
    let stars = pattern.iter().filter(|octet| **octet == b'*').count();
    table.add_if(stars == 0, "no star");
    table.add_if(stars > 3, "more than three stars");
    table.add_if(stars > 11, "more than eleven stars");
    table.add_if(contains(pattern, b"**"), "adjacent stars");
    table.add_if(pattern.ends_with(b"$"), "an end mark");
    table.add_if(pattern.ends_with(b"*$"), "a star before the end mark");
    table.add_if(pattern.ends_with(b"$$"), "\"$$\" at the end");
    table.add_if(pattern.ends_with(b"%24"), "\"%24\" at the end");
    table.add_if(pattern.ends_with(b"%2$"), "\"%2$\" at the end");
    table.add_if(pattern.ends_with(b"%"), "\"%\" at the end");
    table.add_if(pattern.ends_with(b"%7e"), "\"%7e\" at the end");
    table.add_if(
        pattern.len() > 1 && pattern[..pattern.len() - 1].contains(&b'$'),
        "\"$\" inside",
    );
}

fn count_answer(table: &mut Table, case: &MatchCase, answer: &Matched) {
    let marked = case.pattern.ends_with(b"$");
    table.add(match (answer.found, marked, answer.compared) {
        (true, false, _) => "found without an end mark",
        (true, true, _) => "found with an end mark",
        (false, _, 0) => "not found at no cost",
        (false, ..) => "not found after comparing",
    });
    let star = case.pattern.starts_with(b"*");
    table.add_if(star && answer.found, "found, a star first");
    table.add_if(star && !answer.found, "not found, a star first");
}

#[test]
fn matching() {
    let mut table = Table::new("match")
        .expect_refusals(&[0, 1, 3, 4, 5, 8])
        .expect([
            "found without an end mark",
            "found with an end mark",
            "not found at no cost",
            "not found after comparing",
            "compared more than the path's octets",
            "no star",
            "more than three stars",
            "more than eleven stars",
            "adjacent stars",
            "an end mark",
            "a star before the end mark",
            "\"$$\" at the end",
            "\"%24\" at the end",
            "\"%2$\" at the end",
            "\"%\" at the end",
            "\"%7e\" at the end",
            "\"$\" inside",
        ])
        .expect_least(first_rows(1))
        .expect_least([
            ("found, a star first", 6_000),
            ("not found, a star first", 2_500),
        ])
        .expect(names_of(&ESCAPES))
        .expect(names_of(&CHARACTERS));
    let mut patterns = Octets::of("patterns");
    let mut paths = Octets::of("paths");
    let cases = generator::match_edges()
        .into_iter()
        .chain(generator::match_cases(SEED, MATCH_CASES));
    for case in cases {
        table.cases += 1;
        patterns.add(&case.pattern);
        paths.add(&case.path);
        let answer = match_pattern(&case.pattern, &case.path);
        table.add_refusal(answer.refusal);
        if case.pattern.len() < 100_000 {
            table.add_forms(&ESCAPES, &case.pattern);
            table.add_forms(&CHARACTERS, &case.pattern);
        }
        if [0, 8].contains(&answer.refusal) {
            count_first(&mut table, answer.refusal == 0, &case.pattern);
        }
        if answer.refusal != 0 {
            continue;
        }
        count_pattern(&mut table, &case);
        count_answer(&mut table, &case, &answer);
        table.add_if(
            answer.compared > normal(&case.path).len(),
            "compared more than the path's octets",
        );
    }
    table.finish(&[&patterns, &paths]);
}

#[test]
fn normalising() {
    let mut table = Table::new("normalise")
        .expect_refusals(&[0, 3, 4, 5, 6])
        .expect([
            "room of exactly the normalised length",
            "room of one less",
            "room to spare",
            "no room at all",
            "6,142 octets written",
            "shorter than the raw path",
            "as long as the raw path",
            "longer than the raw path",
        ])
        .expect(names_of(&ESCAPES));
    let mut paths = Octets::of("paths");
    let cases = generator::normalise_edges()
        .into_iter()
        .chain(generator::normalise_cases(SEED, NORMALISE_CASES));
    for case in cases {
        table.cases += 1;
        paths.add(&case.path);
        table.add_forms(&ESCAPES, &case.path);
        let mut buffer = vec![0; case.room];
        let answer = normalise(&case.path, &mut buffer);
        table.add_refusal(answer.refusal);
        let length = normal(&case.path).len();
        table.add_if(case.room == 0, "no room at all");
        table.add_if(
            answer.refusal == 6 && case.room + 1 == length,
            "room of one less",
        );
        if answer.refusal != 0 {
            continue;
        }
        table.add(if case.room == length {
            "room of exactly the normalised length"
        } else {
            "room to spare"
        });
        table.add_if(answer.written == 6_142, "6,142 octets written");
        table.add(match length.cmp(&case.path.len()) {
            std::cmp::Ordering::Less => "shorter than the raw path",
            std::cmp::Ordering::Equal => "as long as the raw path",
            std::cmp::Ordering::Greater => "longer than the raw path",
        });
    }
    table.finish(&[&paths]);
}

const KINDS: [&str; 12] = [
    "kind 0 refused",
    "kind 1 blank",
    "kind 2 noise",
    "kind 3 other",
    "kind 4 agent readable",
    "kind 5 agent unreadable",
    "kind 6 allow empty",
    "kind 7 allow readable",
    "kind 8 allow unreadable",
    "kind 9 disallow empty",
    "kind 10 disallow readable",
    "kind 11 disallow unreadable",
];

/// What agents' values are like, and how often they have to be.
const AGENT_ROWS: [(&str, usize); 6] = [
    ("an agent that is a name alone", 2_000),
    ("an agent with something behind its name", 1_000),
    ("an agent with a version behind its name", 150),
    ("an agent with ill-formed octets behind its name", 200),
    ("an unreadable agent that begins with \"*\"", 400),
    ("an unreadable agent that begins with another octet", 400),
];

fn count_agent(table: &mut Table, readable: bool, value: &[u8]) {
    let [alone, more, version, ill_formed, star, other] = AGENT_ROWS.map(|(row, _)| row);
    let behind = &value[name_of(value).len()..];
    if readable && value != b"*" {
        table.add(if behind.is_empty() { alone } else { more });
        let digit = behind.get(1).is_some_and(u8::is_ascii_digit);
        table.add_if(behind.starts_with(b"/") && digit, version);
        table.add_if(std::str::from_utf8(behind).is_err(), ill_formed);
    } else if !readable && !value.is_empty() {
        table.add(if value.starts_with(b"*") { star } else { other });
    }
}

#[test]
fn kinds_of_lines() {
    let mut table = Table::new("line")
        .expect_refusals(&[0, 1, 9])
        .expect(KINDS)
        .expect_least(first_rows(2))
        .expect(["a comment", "a mark in front", "an agent \"*\""])
        .expect_least(AGENT_ROWS)
        .expect(names_of(&CHARACTERS));
    let mut lines = Octets::of("lines");
    let cases = generator::line_edges()
        .into_iter()
        .chain(generator::line_cases(SEED, LINE_CASES));
    for case in cases {
        table.cases += 1;
        let line = case.line.as_slice();
        lines.add(line);
        let answer = line_kind(line);
        table.add_refusal(answer.refusal);
        table.add(KINDS[answer.kind]);
        table.add_if(line.contains(&b'#'), "a comment");
        table.add_if(line.starts_with(MARK), "a mark in front");
        let value = &line[answer.place..answer.place + answer.length];
        table.add_if(answer.kind == 4 && value == b"*", "an agent \"*\"");
        if [4, 5].contains(&answer.kind) {
            count_agent(&mut table, answer.kind == 4, value);
        }
        if answer.kind >= 6 {
            count_first(&mut table, [7, 10].contains(&answer.kind), value);
        }
        if line.len() < 100_000 {
            table.add_forms(&CHARACTERS, line);
        }
    }
    table.finish(&[&lines]);
}

#[test]
fn the_program() {
    let mut table = Table::new("program")
        .expect([
            "refused 2",
            "refused 3",
            "refused 4",
            "refused 5",
            "refused 7",
        ])
        .expect(["allow line 0", "allow by a rule", "disallow by a rule"])
        .expect([
            "input of 65,536",
            "input of 65,537",
            "one part",
            "two parts",
        ]);
    let mut inputs = Octets::of("inputs");
    let cases = generator::program_edges()
        .into_iter()
        .chain(generator::program_cases(SEED, PROGRAM_CASES));
    for case in cases {
        table.cases += 1;
        let input = case.input.as_slice();
        inputs.add(input);
        let output = String::from_utf8(program(input)).expect("the output is plain text");
        let line = output.strip_suffix('\n').expect("the output is one line");
        table.add(if line.starts_with("refused") {
            line
        } else if line.starts_with("allow line 0 ") {
            "allow line 0"
        } else if line.starts_with("allow") {
            "allow by a rule"
        } else {
            "disallow by a rule"
        });
        table.add_if(input.len() == 65_536, "input of 65,536");
        table.add_if(input.len() == 65_537, "input of 65,537");
        let endings = input.iter().filter(|octet| **octet == b'\n').count();
        table.add_if(endings == 0, "one part");
        table.add_if(endings == 1, "two parts");
    }
    table.finish(&[&inputs]);
}
