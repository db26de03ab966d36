//! Files in which many rules apply: what may go wrong for an evaluator that
//! keeps only so many rules at a time.

use crate::batch::Source;
use crate::derived_files::{as_heavy, joined, rule_value};
use crate::files::{comment, field_line};
use crate::patterns::{mended, theme};
use crate::random::Random;
use crate::text::{good_name, other_case, spaces};

/// Numbers of rules, and places of rules: multiples of 512 and their neighbours.
const EDGES: [usize; 14] = [
    0, 1, 510, 511, 512, 513, 1_022, 1_023, 1_024, 1_025, 1_535, 1_536, 1_537, 2_048,
];

/// Most octets of a theme.
const MOST_THEME: usize = 12;

/// Which patterns most of the rules have.
enum Sort {
    /// Their place, or what is left of it after a division, in so many digits at
    /// least.
    Numbered { among: usize, digits: usize },
    /// All of one weight, and on this side but for a few.
    Alike(Vec<u8>, &'static [u8]),
    /// Made from the theme.
    Derived,
}

/// What a file is drawn from, and what is written so far.
struct Writer {
    sort: Sort,
    name: Vec<u8>,
    /// Whether "*" is named, and the crawler nowhere.
    everyone: bool,
    theme: Vec<u8>,
    /// Places of rules that are made from the theme.
    planted: Vec<usize>,
    /// The patterns of these, and of all.
    made: Vec<Vec<u8>>,
    patterns: Vec<Vec<u8>>,
    lines: Vec<Vec<u8>>,
}

/// A file in which so many rules apply, and a theme that many of them match.
pub(crate) fn many_rules(random: &mut Random) -> Source {
    let mut theme = theme(random);
    theme.truncate(MOST_THEME);
    let count = rules(random);
    let mut writer = Writer {
        sort: sort(random, &theme, count),
        name: good_name(random),
        everyone: random.one_in(3),
        theme,
        planted: planted(random, count),
        made: Vec::new(),
        patterns: Vec::new(),
        lines: Vec::new(),
    };
    writer.write(random, count);
    let patterns = writer.chosen(random);
    let theme = match random.below(patterns.len() + 4) {
        0..4 => writer.theme,
        other => mended(random, patterns[other - 4].clone()),
    };
    Source {
        file: joined(random, writer.lines),
        name: writer.name,
        theme,
        patterns,
    }
}

/// How many rules apply, unless some of them are unreadable.
fn rules(random: &mut Random) -> usize {
    match random.below(20) {
        0..=9 => EDGES[random.below(EDGES.len())],
        10 => random.below(510),
        11..=14 => random.between(514, 1_100),
        15..=18 => random.between(1_100, 2_100),
        _ => random.between(3_000, 6_000),
    }
}

fn sort(random: &mut Random, theme: &[u8], count: usize) -> Sort {
    match random.below(4) {
        0 | 1 => Sort::Numbered {
            among: [count + 1, count + 1, 100, 512, 700][random.below(5)],
            digits: [1, 4, 4][random.below(3)],
        },
        2 => {
            let front = theme[..random.between(1, theme.len())].to_vec();
            Sort::Alike(front, random.pick(&[b"allow", b"disallow", b"disallow"]))
        }
        _ => Sort::Derived,
    }
}

fn planted(random: &mut Random, count: usize) -> Vec<usize> {
    let places = (0..random.between(1, 5)).map(|_| match random.below(4) {
        0 | 1 => EDGES[random.below(EDGES.len())],
        2 => count.saturating_sub(1),
        _ => random.below(count + 1),
    });
    places.filter(|place| *place < count).collect()
}

impl Writer {
    fn write(&mut self, random: &mut Random, count: usize) {
        self.agent_line(random);
        for place in 0..count {
            self.rule_line(random, place);
            match random.below(400) {
                0 => self.other_group(random),
                1..=3 => self.agent_line(random),
                4..=9 => self.lines.push(comment(random)),
                10..=14 => self.lines.push(spaces(random).to_vec()),
                15 => self.unread_rule(random),
                _ => {}
            }
        }
    }

    /// A line by which the rules behind it apply.
    fn agent_line(&mut self, random: &mut Random) {
        let value = match self.everyone {
            true => b"*".to_vec(),
            false => other_case(random, &self.name),
        };
        self.lines.push(field_line(random, b"user-agent", &value));
    }

    /// A group whose rules don't apply, and the next one that applies.
    fn other_group(&mut self, random: &mut Random) {
        let name: &[u8] = match self.everyone {
            true => b"stranger",
            false => random.pick(&[b"*".as_slice(), b"stranger"]),
        };
        self.lines.push(field_line(random, b"user-agent", name));
        for _ in 0..random.between(1, 4) {
            let side: &[u8] = random.pick(&[b"allow", b"disallow"]);
            self.lines.push(field_line(random, side, &self.theme));
        }
        self.agent_line(random);
    }

    fn unread_rule(&mut self, random: &mut Random) {
        let value: &[u8] = random.pick(&[b"", b"a", b"$/", b"/\xFF", b"*\xC3"]);
        let side: &[u8] = random.pick(&[b"allow", b"disallow"]);
        self.lines.push(field_line(random, side, value));
    }

    fn rule_line(&mut self, random: &mut Random, place: usize) {
        let any: &[u8] = random.pick(&[b"allow", b"disallow"]);
        let is_planted = self.planted.contains(&place);
        let (side, pattern) = match &self.sort {
            Sort::Alike(front, _) if is_planted => (any, as_heavy(random, front.clone())),
            Sort::Alike(front, side) => (*side, as_heavy(random, front.clone())),
            Sort::Numbered { among, digits } if !is_planted => {
                (any, numbered(random, place % among, *digits))
            }
            _ => {
                let made = rule_value(random, &self.theme, &self.made);
                self.made.push(made.clone());
                (any, made)
            }
        };
        self.lines.push(field_line(random, side, &pattern));
        self.patterns.push(pattern);
    }

    /// Some of the patterns: those of planted rules, those at the edges, others.
    fn chosen(&self, random: &mut Random) -> Vec<Vec<u8>> {
        let any = (0..6).map(|_| random.below(self.patterns.len() + 1));
        let places = any.chain(self.planted.iter().copied()).chain(EDGES);
        let patterns = places.filter_map(|place| self.patterns.get(place));
        patterns.cloned().collect()
    }
}

fn numbered(random: &mut Random, number: usize, digits: usize) -> Vec<u8> {
    let end = match random.below(10) {
        0 => "$",
        1 => "*",
        2 => "/",
        _ => "",
    };
    format!("/z{number:0digits$}{end}").into_bytes()
}
