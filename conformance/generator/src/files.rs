//! Rules files and their lines.

use crate::agents::{behind_name, unreadable_agent};
use crate::patterns::{pattern, theme};
use crate::random::Random;
use crate::text::{any_octets, good_name, ill_formed, other_case, spaces, well_formed, MARK};

/// What a case's file is drawn from.
pub(crate) struct Setting {
    pub(crate) theme: Vec<u8>,
    /// The crawler's name, or one that stands for it.
    name: Vec<u8>,
    names_crawler: bool,
    names_everyone: bool,
    /// The patterns written so far.
    pub(crate) patterns: Vec<Vec<u8>>,
}

pub(crate) const ENDINGS: [&[u8]; 4] = [b"\r", b"\n", b"\r\n", b"\n\r"];

impl Setting {
    pub(crate) fn new(random: &mut Random, name: &[u8]) -> Setting {
        Setting {
            theme: theme(random),
            name: name.to_vec(),
            names_crawler: random.percent(65),
            names_everyone: random.percent(80),
            patterns: Vec::new(),
        }
    }

    /// A whole file.
    pub(crate) fn file(&mut self, random: &mut Random) -> Vec<u8> {
        let mut file = Vec::new();
        if random.one_in(6) {
            file.extend(leading_mark(random));
        }
        let one_ending = random.percent(70).then(|| random.pick(&ENDINGS));
        let lines = match random.below(100) {
            0 => random.between(60, 300),
            1..=3 => 0,
            _ => random.between(1, 16),
        };
        for index in 0..lines {
            if index == 0 && random.percent(70) {
                file.extend(self.agent_line(random));
            } else {
                file.extend(self.line(random));
            }
            let is_last = index + 1 == lines;
            if !is_last || random.one_in(2) {
                file.extend(one_ending.unwrap_or_else(|| random.pick(&ENDINGS)));
            }
        }
        if random.one_in(40) && !file.is_empty() {
            let at = random.below(file.len());
            file[at] = random.octet();
        }
        file
    }

    /// One line without its ending; a damaged one may hold endings.
    pub(crate) fn line(&mut self, random: &mut Random) -> Vec<u8> {
        match random.below(100) {
            0..=27 => self.agent_line(random),
            28..=77 => self.rule_line(random),
            78..=81 => spaces(random).to_vec(),
            82..=85 => [spaces(random), &comment(random)].concat(),
            86..=88 => self.noise_line(random),
            89..=93 => self.other_line(random),
            94..=96 => any_octets(random, 24),
            _ => {
                let line = self.rule_line(random);
                [random.pick(&[MARK, &MARK[..2], &MARK[1..]]), &line].concat()
            }
        }
    }

    fn agent_line(&mut self, random: &mut Random) -> Vec<u8> {
        let value = self.agent(random);
        field_line(random, b"user-agent", &value)
    }

    fn agent(&mut self, random: &mut Random) -> Vec<u8> {
        let mut own = b"stranger".to_vec();
        if self.names_crawler {
            own = other_case(random, &self.name);
        }
        let everyone: &[u8] = if self.names_everyone { b"*" } else { b"nobody" };
        match random.below(100) {
            0..=27 => own,
            28..=41 => [own, behind_name(random)].concat(),
            42..=67 => everyone.to_vec(),
            68..=71 => good_name(random),
            72..=74 => [good_name(random), behind_name(random)].concat(),
            75..=79 => Vec::new(),
            80..=82 => own[..own.len() / 2].to_vec(),
            83..=85 => [own.as_slice(), random.pick(&[b"x", b"-", b"_", b"a"])].concat(),
            86..=92 => unreadable_agent(random, &own),
            93..=94 => [own.as_slice(), &[random.octet()]].concat(),
            95..=96 => [&[random.octet()], own.as_slice()].concat(),
            97 => well_formed(random).to_vec(),
            _ => any_octets(random, 6),
        }
    }

    fn rule_line(&mut self, random: &mut Random) -> Vec<u8> {
        let side: &[u8] = random.pick(&[b"allow", b"disallow", b"disallow"]);
        let value = self.rule_value(random);
        field_line(random, side, &value)
    }

    fn rule_value(&mut self, random: &mut Random) -> Vec<u8> {
        let known = self.patterns.len();
        let value = match random.below(100) {
            // A tie is likely then.
            0..=21 if known > 0 => self.patterns[random.below(known)].clone(),
            22..=29 => return Vec::new(),
            30..=33 => damaged_pattern(random, &self.theme),
            _ => pattern(random, &self.theme),
        };
        self.patterns.push(value.clone());
        value
    }

    fn noise_line(&mut self, random: &mut Random) -> Vec<u8> {
        match random.below(3) {
            0 => b"disallow /".to_vec(),
            1 => self.theme.clone(),
            _ => [b"user-agent ", self.name.as_slice(), b" # :"].concat(),
        }
    }

    fn other_line(&mut self, random: &mut Random) -> Vec<u8> {
        let field: &[u8] = random.pick(&[
            b"sitemap",
            b"crawl-delay",
            b"useragent",
            b"user agent",
            b"user-agents",
            b"user_agent",
            b"disalow",
            b"dis allow",
            b"allowed",
            b"allo",
            b"",
            b"\0allow",
            b"\xC3\xA9",
        ]);
        let value = match random.below(3) {
            0 => self.name.clone(),
            1 => self.theme.clone(),
            _ => any_octets(random, 8),
        };
        field_line(random, field, &value)
    }
}

pub(crate) fn field_line(random: &mut Random, field: &[u8], value: &[u8]) -> Vec<u8> {
    let mut line = spaces(random).to_vec();
    if random.one_in(3) {
        line.extend(other_case(random, field));
    } else {
        line.extend(field);
    }
    line.extend(spaces(random));
    line.push(b':');
    line.extend(spaces(random));
    line.extend(value);
    line.extend(spaces(random));
    if random.one_in(8) {
        line.extend(comment(random));
    }
    line
}

pub(crate) fn comment(random: &mut Random) -> Vec<u8> {
    let text = match random.below(4) {
        0 => b" disallow: /".to_vec(),
        1 => b"user-agent:*#".to_vec(),
        2 => ill_formed(random).to_vec(),
        _ => any_octets(random, 6),
    };
    [b"#".as_slice(), &text].concat()
}

/// A pattern that is unreadable, or nearly.
fn damaged_pattern(random: &mut Random, theme: &[u8]) -> Vec<u8> {
    let mut pattern = theme.to_vec();
    match random.below(5) {
        0 => {
            pattern.remove(0);
        }
        1 => pattern[0] = random.octet_of(b"*$%a.\xEF"),
        2 => {
            pattern[0] = random.octet_of(b"/*");
            pattern.extend(ill_formed(random));
        }
        3 => {
            let at = random.between(1, pattern.len());
            pattern.insert(at, random.octet_of(b" \t\0\x1F\x7F\x0B"));
        }
        _ => {
            let at = random.between(1, pattern.len());
            pattern.insert(at, random.octet());
        }
    }
    pattern
}

pub(crate) fn leading_mark(random: &mut Random) -> Vec<u8> {
    let doubled = [MARK, MARK].concat();
    match random.below(8) {
        0 => MARK[..1].to_vec(),
        1 => MARK[..2].to_vec(),
        2 => MARK[1..].to_vec(),
        3 => doubled,
        _ => MARK.to_vec(),
    }
}
