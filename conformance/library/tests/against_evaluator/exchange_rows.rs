//! What generated exchanges have, of those things that matter.

use std::collections::BTreeMap;

use generator::{ExchangeCase, Parts};

use crate::deciding::endings;
use crate::support::{told, Told, MARK};

/// Whether it occurs, what it is, and how often it has to occur.
pub type Row = (bool, &'static str, usize);

/// How often each row has occurred, and how often it has to.
#[derive(Default)]
pub struct Rows(BTreeMap<&'static str, (usize, usize)>);

impl Rows {
    pub fn add(&mut self, rows: Vec<Row>) {
        for (occurs, what, least) in rows {
            let row = self.0.entry(what).or_insert((0, least));
            row.0 += usize::from(occurs);
        }
    }

    pub fn count(&self, what: &str) -> usize {
        self.0.get(what).map_or(0, |(count, _)| *count)
    }

    /// Prints the rows and fails if one has occurred too seldom.
    pub fn finish(&self) {
        for (what, (count, _)) in &self.0 {
            println!("{count:>8}  {what}");
        }
        for (what, (count, least)) in &self.0 {
            assert!(count >= least, "{what}: {count}, under {least}");
        }
    }
}

/// What a case has, its questions aside.
pub fn of_exchange(case: &ExchangeCase) -> Vec<Row> {
    let parts = &case.parts;
    let rows = [
        vec![(true, "exchanges", 50_000)],
        of_endings(parts),
        of_seams(parts),
        of_frame(parts),
        of_groups(parts, &case.questions[0].name),
        of_lines(parts),
        of_lines_ahead(parts),
    ];
    rows.concat()
}

fn of_endings(parts: &Parts) -> Vec<Row> {
    let file = parts.file();
    let both = file.windows(2).filter(|pair| pair == b"\r\n").count();
    let count = |ending: u8| file.iter().filter(|octet| **octet == ending).count();
    let (returns, feeds) = (count(b'\r') > both, count(b'\n') > both);
    let (before, after) = (endings(&file), endings(&parts.exchanged()));
    let all = returns && feeds && both > 0;
    vec![
        (returns, "CR ends a line", 25_000),
        (feeds, "LF ends a line", 25_000),
        (both > 0, "CR LF ends a line", 25_000),
        (all, "all three endings in one file", 15_000),
        (before < after, "a blank line appears", 1_500),
        (before > after, "a blank line vanishes", 1_500),
    ]
}

/// Where a CR ends a part and an LF begins the next one, in the file or in the
/// exchanged one.
fn of_seams(parts: &Parts) -> Vec<Row> {
    let [front, one, two, rest] = [&parts.front, &parts.one, &parts.two, &parts.rest];
    let seam = |before: &[u8], behind: &[u8]| before.ends_with(b"\r") && behind.starts_with(b"\n");
    vec![
        (seam(front, one), "CR|LF, front and one", 2_500),
        (seam(one, two), "CR|LF, one and two", 4_000),
        (seam(two, rest), "CR|LF, two and rest", 2_500),
        (seam(front, two), "CR|LF, front and two, exchanged", 2_500),
        (seam(two, one), "CR|LF, two and one, exchanged", 4_000),
        (seam(one, rest), "CR|LF, one and rest, exchanged", 2_500),
    ]
}

/// What stands around the exchanged parts.
fn of_frame(parts: &Parts) -> Vec<Row> {
    let Parts { front, rest, .. } = parts;
    let is_ended = matches!(rest.last(), Some(b'\r' | b'\n'));
    let no_ending = !rest.is_empty() && !is_ended;
    let mut fields = lines(front).into_iter().filter(|line| line.kind >= 4);
    let rule_first = fields.next().is_some_and(|line| line.is_rule());
    let with_octets = parts.one.starts_with(MARK) || parts.two.starts_with(MARK);
    vec![
        (parts.mark == MARK, "a mark", 8_000),
        (parts.mark.is_empty(), "no mark", 20_000),
        (with_octets, "EF BB BF begins an exchanged part", 1_500),
        (front.is_empty(), "an empty front", 12_000),
        (!groups(front).is_empty(), "a front with a group", 12_000),
        (rule_first, "a front that begins with a rule", 5_000),
        (rest.is_empty(), "an empty rest", 10_000),
        (no_ending, "a rest without an ending", 9_000),
        (is_ended, "a rest with an ending", 9_000),
    ]
}

/// Whom the groups name.
fn of_groups(parts: &Parts, name: &[u8]) -> Vec<Row> {
    let [front, one, two, rest] =
        [&parts.front, &parts.one, &parts.two, &parts.rest].map(|part| groups(part));
    let count = |part: &[Group], name| part.iter().filter(|group| group.names(name)).count();
    let own = [&one, &two].map(|part| count(part, name));
    let everyone = [&one, &two].map(|part| count(part, b"*"));
    let all = own[0] + own[1] + count(&front, name) + count(&rest, name);
    let names_both = |group: &Group| group.names(name) && group.names(b"*");
    let for_both = one.iter().chain(&two).any(names_both);
    let several = one.len() > 1 || two.len() > 1;
    let in_one_part = own.contains(&0) && own != [0; 2];
    vec![
        (several, "an exchanged part of several groups", 12_000),
        (for_both, "an exchanged group for crawler and *", 12_000),
        (!own.contains(&0), "both parts name the crawler", 12_000),
        (in_one_part, "one of both parts names the crawler", 12_000),
        (!everyone.contains(&0), "both parts name *", 7_000),
        (all > 2, "more than two groups name the crawler", 12_000),
        (all == 0, "no group names the crawler", 1_000),
    ]
}

/// The kinds of the exchanged parts' lines.
fn of_lines(parts: &Parts) -> Vec<Row> {
    let read = [&parts.one, &parts.two].map(|part| lines(part));
    let has = |kinds: &[usize]| read.iter().flatten().any(|line| kinds.contains(&line.kind));
    let is_readable = |line: &Told| line.kind == 7 || line.kind == 10;
    let no_readable = |part: &Vec<Told>| !part.iter().any(is_readable);
    let unread = read.iter().any(no_readable);
    vec![
        (has(&[5]), "an unreadable agent in a part", 12_000),
        (has(&[8, 11]), "an unreadable rule in a part", 12_000),
        (has(&[6, 9]), "an empty rule in a part", 10_000),
        (unread, "a part without a readable rule", 4_500),
    ]
}

/// What stands in front of an exchanged part's first agent line.
fn of_lines_ahead(parts: &Parts) -> Vec<Row> {
    let read = [&parts.one, &parts.two].into_iter();
    let ahead = read.flat_map(|part| lines(part).into_iter().take_while(|line| !line.is_agent()));
    let ahead: Vec<Told> = ahead.collect();
    let has = |kind: usize| ahead.iter().any(|line| line.kind == kind);
    let remark = |line: &Told| line.kind == 1 && line.line.contains(&b'#');
    vec![
        (ahead.iter().any(remark), "a remark ahead of a group", 7_000),
        (has(2), "noise ahead of a group", 4_000),
        (has(3), "another record ahead of a group", 6_000),
    ]
}

/// The lines of a part. No mark is skipped, as the first line is a blank one.
fn lines(part: &[u8]) -> Vec<Told> {
    told(&[b"\n", part].concat())
}

/// The agent lines and rules of a group.
struct Group(Vec<Told>);

impl Group {
    fn names(&self, name: &[u8]) -> bool {
        self.0.iter().any(|line| line.names(name))
    }

    fn has_rule(&self) -> bool {
        self.0.iter().any(Told::is_rule)
    }
}

/// The groups of a part by itself.
fn groups(part: &[u8]) -> Vec<Group> {
    let mut groups: Vec<Group> = Vec::new();
    for line in lines(part).into_iter().filter(|line| line.kind >= 4) {
        if line.is_agent() && groups.last().is_none_or(Group::has_rule) {
            groups.push(Group(Vec::new()));
        }
        if let Some(group) = groups.last_mut() {
            group.0.push(line);
        }
    }
    groups
}
