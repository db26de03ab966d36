//! The parts of a file in which two neighbours may be exchanged.

use crate::derived_files::{agent, rule_value};
use crate::files::{comment, field_line, ENDINGS};
use crate::random::Random;
use crate::text::{spaces, MARK};

/// Writes the parts of one file.
pub(crate) struct Writer<'a> {
    name: &'a [u8],
    path: &'a [u8],
    /// The ending of all lines; none if they are mixed.
    one_ending: Option<&'static [u8]>,
    /// Whether many parts end in CR and many begin with LF.
    seams: bool,
    /// The patterns written so far.
    patterns: Vec<Vec<u8>>,
}

impl<'a> Writer<'a> {
    pub(crate) fn new(random: &mut Random, name: &'a [u8], path: &'a [u8]) -> Writer<'a> {
        Writer {
            name,
            path,
            one_ending: random.percent(60).then(|| random.pick(&ENDINGS)),
            seams: random.percent(30),
            patterns: Vec::new(),
        }
    }

    /// Empty, or ended, and with a rule as its last line that is an agent's or a
    /// rule. Rules may stand in front of the first agent line.
    pub(crate) fn front(&mut self, random: &mut Random) -> Vec<u8> {
        let mut lines = quiet_lines(random, 3);
        if random.one_in(4) {
            lines.extend(self.rules(random));
        }
        match random.below(10) {
            0..=2 => lines.clear(),
            3..=5 => {}
            _ => lines.extend(self.groups(random)),
        }
        let mut front = self.ended(random, lines);
        self.end_in_return(random, &mut front);
        front
    }

    /// One group, or several, with what stands in front of it and behind it. Its
    /// last line is ended.
    pub(crate) fn exchanged_part(&mut self, random: &mut Random) -> Vec<u8> {
        let lines = self.groups(random);
        let mut part = self.ended(random, lines);
        self.begin_with_feed(random, &mut part);
        self.end_in_return(random, &mut part);
        part
    }

    /// Groups, the last perhaps without a rule and without an ending, or lines
    /// that belong to none, or nothing.
    pub(crate) fn rest(&mut self, random: &mut Random) -> Vec<u8> {
        let mut lines = match random.below(10) {
            0..=2 => return Vec::new(),
            3 => quiet_lines(random, 3),
            _ => self.groups(random),
        };
        if random.one_in(6) {
            lines.extend(self.agents(random));
        }
        let mut rest = self.ended(random, lines);
        self.begin_with_feed(random, &mut rest);
        if random.one_in(2) {
            while matches!(rest.last(), Some(b'\r' | b'\n')) {
                rest.pop();
            }
        }
        rest
    }

    /// Mostly one group. Each has an agent line and then a rule line.
    fn groups(&mut self, random: &mut Random) -> Vec<Vec<u8>> {
        let mut lines = quiet_lines(random, 2);
        let count = if random.one_in(4) { 2 } else { 1 };
        for _ in 0..count {
            lines.extend(self.agents(random));
            lines.extend(self.rules(random));
        }
        lines
    }

    fn agents(&self, random: &mut Random) -> Vec<Vec<u8>> {
        let mut lines = Vec::new();
        for _ in 0..random.between(1, 3) {
            let value = agent(random, self.name);
            lines.push(field_line(random, b"user-agent", &value));
            lines.extend(quiet_lines(random, 1));
        }
        lines
    }

    /// One rule line or more, of any readability.
    fn rules(&mut self, random: &mut Random) -> Vec<Vec<u8>> {
        let mut lines = Vec::new();
        for _ in 0..random.between(1, 3) {
            let value = rule_value(random, self.path, &self.patterns);
            let side: &[u8] = random.pick(&[b"allow", b"disallow", b"disallow"]);
            lines.push(field_line(random, side, &value));
            lines.extend(quiet_lines(random, 1));
            self.patterns.push(value);
        }
        lines
    }

    /// Each line with an ending.
    fn ended(&self, random: &mut Random, lines: Vec<Vec<u8>>) -> Vec<u8> {
        let mut text = Vec::new();
        for line in lines {
            text.extend(line);
            text.extend(self.one_ending.unwrap_or_else(|| random.pick(&ENDINGS)));
        }
        text
    }

    /// A blank line in front, which an LF ends: with a CR in front of it there is
    /// none.
    fn begin_with_feed(&self, random: &mut Random, part: &mut Vec<u8>) {
        if self.seams && random.percent(60) && !part.is_empty() {
            part.insert(0, b'\n');
        }
    }

    /// CR in place of the last ending.
    fn end_in_return(&self, random: &mut Random, part: &mut Vec<u8>) {
        if !self.seams || random.percent(40) {
            return;
        }
        if part.ends_with(b"\r\n") {
            part.pop();
        } else if let Some(last) = part.last_mut() {
            *last = b'\r';
        }
    }
}

/// Up to so many lines that are neither an agent's nor a rule; mostly none.
fn quiet_lines(random: &mut Random, most: usize) -> Vec<Vec<u8>> {
    let count = match random.below(3) {
        0 => random.between(1, most),
        _ => 0,
    };
    (0..count).map(|_| quiet_line(random)).collect()
}

fn quiet_line(random: &mut Random) -> Vec<u8> {
    let noise: &[u8] = random.pick(&[b"allow /", b"disallow", b"user-agent a", b"-"]);
    let other: &[u8] = random.pick(&[b"sitemap", b"crawl-delay", b"user agent", b""]);
    let marked: &[u8] = random.pick(&[b"user-agent: *", b"disallow: /", b"#", b""]);
    match random.below(10) {
        0..=2 => spaces(random).to_vec(),
        3..=5 => [spaces(random), &comment(random)].concat(),
        6 => noise.to_vec(),
        7 | 8 => field_line(random, other, b"/"),
        _ => [MARK, marked].concat(),
    }
}
