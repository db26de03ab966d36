//! Files of many short lines: what stands in them, and at which offsets.

use evaluator::{decide, Decision};
use generator::{DecideCase, SEED};

use crate::support::{told, Told, MARK};
use crate::{contains, count_file, normal, Table, FILE_ROWS};

const CASES: usize = 40_000;

/// Offsets in a block.
const BLOCK: usize = 64;

/// How often something begins at each offset of a block.
struct Offsets {
    what: &'static str,
    least: usize,
    counts: [usize; BLOCK],
}

impl Offsets {
    fn of(what: &'static str, least: usize) -> Offsets {
        let counts = [0; BLOCK];
        Offsets {
            what,
            least,
            counts,
        }
    }

    fn add(&mut self, place: usize) {
        self.counts[place % BLOCK] += 1;
    }

    /// Prints the rarest offset and fails if it is under the number it wants.
    fn finish(&self) {
        let rarest = self.counts.iter().copied().min().unwrap_or(0);
        println!("  {rarest:>8}  {} at the rarest offset of 64", self.what);
        let (what, least) = (self.what, self.least);
        assert!(rarest >= least, "{what}: {rarest}, under {least}");
    }
}

const ANSWER_ROWS: [(&str, usize); 8] = [
    ("allow by a rule", 3_000),
    ("disallow by a rule", 6_000),
    ("allow, compared but no match", 2_000),
    ("allow, nothing compared", 2_000),
    ("always allowed: /robots.txt", 400),
    ("unread lines", 7_000),
    ("by a line past the first 64", 1_200),
    ("by a rule of more than 64 octets", 1_000),
];

const LINE_ROWS: [(&str, usize); 13] = [
    ("a line of 0 octets", 150_000),
    ("a line of 1 octet", 150_000),
    ("a line of 2 octets", 150_000),
    ("a line of 3 octets", 150_000),
    ("a line of 4 octets", 150_000),
    ("a line of more than 64 octets", 25_000),
    (
        "a line that opens like an agent line or a rule and is none",
        35_000,
    ),
    ("a field with blanks in front", 50_000),
    ("a field in mixed case", 20_000),
    ("a comment behind a value", 8_000),
    ("a pattern of more than 64 octets", 4_000),
    ("an unreadable agent or rule", 12_000),
    (
        "200 octets of other lines in front of an agent line or a rule",
        4_000,
    ),
];

const NAME_ROWS: [(&str, usize); 4] = [
    ("the name and one octet of a name more", 700),
    ("the name less one octet", 500),
    ("the name and a digit", 600),
    ("a name cut by the end of the file", 1_500),
];

const PATH_ROWS: [(&str, usize); 6] = [
    ("a path of 2,047 octets", 80),
    ("a path of 2,048 octets", 80),
    ("a path of 2,049 octets", 80),
    ("a path of more than 64 ordinary octets", 3_000),
    ("a path with three escapes", 2_000),
    ("a path with an octet of 7F or more", 2_500),
];

/// Where each line begins.
fn starts(file: &[u8]) -> Vec<usize> {
    let first = if file.starts_with(MARK) {
        MARK.len()
    } else {
        0
    };
    let ends = |at: &usize| match file[*at] {
        b'\n' => true,
        b'\r' => file.get(at + 1) != Some(&b'\n'),
        _ => false,
    };
    let behind = (first..file.len()).filter(ends).map(|at| at + 1);
    let all = std::iter::once(first).chain(behind);
    all.filter(|at| *at < file.len()).collect()
}

/// Without the blanks in front.
fn unblanked(line: &[u8]) -> &[u8] {
    let blanks = line.iter().take_while(|o| b" \t".contains(o)).count();
    &line[blanks..]
}

fn count_answer(table: &mut Table, case: &DecideCase, decision: &Decision) {
    let [allow, disallow, no_match, nothing, robots, unread, late, long] =
        ANSWER_ROWS.map(|(row, _)| row);
    table.add(
        match (decision.disallow, decision.line, decision.compared) {
            _ if normal(&case.path) == b"/robots.txt" => robots,
            (true, ..) => disallow,
            (false, 1.., _) => allow,
            (false, 0, 0) => nothing,
            (false, 0, _) => no_match,
        },
    );
    table.add_if(decision.unread > 0, unread);
    table.add_if(decision.line > 64, late);
    table.add_if(decision.length > 64, long);
}

fn count_line(table: &mut Table, line: &Told) {
    let [zero, one, two, three, four, long, opens, front, mixed, comment, pattern, unread, _] =
        LINE_ROWS.map(|(row, _)| row);
    match line.line.len() {
        length @ 0..=4 => table.add([zero, one, two, three, four][length]),
        length => table.add_if(length > BLOCK, long),
    }
    let text = unblanked(&line.line);
    if line.kind < 4 {
        let first = text.first().map(u8::to_ascii_lowercase);
        table.add_if(matches!(first, Some(b'u' | b'a' | b'd')), opens);
        return;
    }
    table.add_if(text.len() < line.line.len(), front);
    let field = text.split(|octet| *octet == b':').next().unwrap_or(b"");
    let has = |sort: fn(&u8) -> bool| field.iter().any(sort);
    let both = has(u8::is_ascii_uppercase) && has(u8::is_ascii_lowercase);
    table.add_if(both, mixed);
    table.add_if(!line.value.is_empty() && text.contains(&b'#'), comment);
    table.add_if(line.is_rule() && line.value.len() > BLOCK, pattern);
    table.add_if([5, 8, 11].contains(&line.kind), unread);
}

fn count_names(table: &mut Table, name: &[u8], lines: &[Told]) {
    let [more, less, digit, cut] = NAME_ROWS.map(|(row, _)| row);
    for line in lines.iter().filter(|line| line.kind == 4) {
        let told = line.name();
        let common = told.len().min(name.len());
        let begins = told[..common].eq_ignore_ascii_case(&name[..common]);
        table.add_if(begins && told.len() == name.len() + 1, more);
        table.add_if(begins && told.len() + 1 == name.len(), less);
        let behind = line.value.get(told.len());
        table.add_if(
            line.names(name) && behind.is_some_and(u8::is_ascii_digit),
            digit,
        );
    }
    let Some(last) = lines.last().filter(|line| line.kind == 2) else {
        return;
    };
    let text = unblanked(&last.line).to_ascii_lowercase();
    let fields: [&[u8]; 3] = [b"user-agent", b"allow", b"disallow"];
    table.add_if(fields.iter().any(|field| field.starts_with(&text)), cut);
}

fn count_path(table: &mut Table, path: &[u8]) {
    let [below, most, above, ordinary, escapes, high] = PATH_ROWS.map(|(row, _)| row);
    match path.len() {
        2_047 => table.add(below),
        2_048 => table.add(most),
        2_049 => table.add(above),
        _ => {}
    }
    let first = path.iter().position(is_unusual).unwrap_or(path.len());
    table.add_if(first > BLOCK, ordinary);
    let signs = path.iter().filter(|octet| **octet == b'%').count();
    table.add_if(signs >= 3, escapes);
    table.add_if(path.iter().any(|octet| *octet >= 0x7F), high);
}

/// An octet that normalising changes, or may.
fn is_unusual(octet: &u8) -> bool {
    matches!(octet, b'%' | b'*' | b'$' | 0x7F..)
}

/// An octet that no path has.
fn is_refused(octet: &u8) -> bool {
    *octet <= b' ' || *octet == b'#'
}

/// Where agent lines, rules and what is in them begin.
struct Places {
    agents: Offsets,
    rules: Offsets,
    deciding: Offsets,
    unusual: Offsets,
    refused: Offsets,
    ends: Offsets,
}

impl Places {
    fn new() -> Places {
        Places {
            agents: Offsets::of("an agent line", 250),
            rules: Offsets::of("a rule", 400),
            deciding: Offsets::of("a deciding pattern", 80),
            unusual: Offsets::of("the first unusual octet of a path", 20),
            refused: Offsets::of("an octet that no path has", 2),
            ends: Offsets::of("the end of a file", 250),
        }
    }

    fn add_path(&mut self, path: &[u8]) {
        if let Some(at) = path.iter().position(is_unusual) {
            self.unusual.add(at);
        }
        if let Some(at) = path.iter().position(is_refused) {
            self.refused.add(at);
        }
    }

    fn finish(&self) {
        let first = [&self.agents, &self.rules, &self.deciding];
        let rest = [&self.unusual, &self.refused, &self.ends];
        first
            .iter()
            .chain(&rest)
            .for_each(|offsets| offsets.finish());
    }
}

/// The lines of a file that is answered.
fn count_lines(table: &mut Table, places: &mut Places, case: &DecideCase) {
    let (starts, lines) = (starts(&case.file), told(&case.file));
    assert_eq!(starts.len(), lines.len(), "lines of {case:?}");
    let mut before = 0;
    for (start, line) in starts.into_iter().zip(&lines) {
        count_line(table, line);
        if line.is_agent() {
            places.agents.add(start);
        } else if line.is_rule() {
            places.rules.add(start);
        }
        if line.is_agent() || line.is_rule() {
            let [.., (far, _)] = LINE_ROWS;
            table.add_if(start >= before + 200, far);
            before = start + line.line.len();
        }
    }
    count_names(table, &case.name, &lines);
}

#[test]
fn dense_files() {
    let mut table = Table::new("dense files")
        .expect_refusals(&[0, 1, 2, 3, 4, 5])
        .expect_least(ANSWER_ROWS)
        .expect_least(FILE_ROWS.map(|row| (row, 20)))
        .expect_least(LINE_ROWS)
        .expect_least(NAME_ROWS)
        .expect_least(PATH_ROWS)
        .expect_least([
            ("an empty line 64 times over", 200),
            ("a file of more than 600 octets", 2_000),
        ]);
    let mut places = Places::new();
    for case in generator::dense_decide_cases(SEED, CASES) {
        table.cases += 1;
        count_path(&mut table, &case.path);
        places.add_path(&case.path);
        let decision = decide(&case.file, &case.name, &case.path);
        table.add_refusal(decision.refusal);
        if decision.refusal != 0 || case.file.len() > 100_000 {
            continue;
        }
        count_file(&mut table, &case.file);
        count_answer(&mut table, &case, &decision);
        count_lines(&mut table, &mut places, &case);
        places.ends.add(case.file.len());
        if decision.line > 0 {
            places.deciding.add(decision.place);
        }
        let is_long = case.file.len() > 600;
        table.add_if(is_long, "a file of more than 600 octets");
        let again =
            contains(&case.file, &b"\n".repeat(64)) || contains(&case.file, &b"\r".repeat(64));
        table.add_if(again, "an empty line 64 times over");
    }
    table.finish(&[]);
    places.finish();
}
