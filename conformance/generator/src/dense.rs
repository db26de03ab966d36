//! Files of many short lines, and agent lines and rules between them at any
//! offset: what may go wrong for an evaluator that looks at 16 or 64 octets at
//! a time, or at some octets ahead.

use crate::dense_values::{agent, path, rule_value};
use crate::derived_files::{refused_name, refused_path};
use crate::files::leading_mark;
use crate::random::Random;
use crate::text::{good_name, other_case, spaces, MOST_OCTETS};
use crate::DecideCase;

/// The octets that matter to a line, and some beside them.
const OCTETS: &[u8] = b"useraldi \t#:/*$%\n\r\0x\x7F\xC3\xA9\xEF\xBB\xBF";

/// Those with which no agent line and no rule begins.
const QUIET: &[u8] = b"serlix#:/*$%\0\x7F\xC3\xA9\xEF\xBB\xBF";

const ENDINGS: [&[u8]; 3] = [b"\n", b"\r", b"\r\n"];

/// Lines that open like one with a field and have none, or another one.
const NEARLY: [&[u8]; 34] = [
    b"u",
    b"user",
    b"user-agen",
    b"user-agen:*",
    b"user-agent",
    b"user-agent *",
    b"user-agent\0:*",
    b"user-agent;*",
    b"user-agents: x",
    b"user_agent:*",
    b"useragent:*",
    b"user agent:*",
    b"uuser-agent:*",
    b"user-agent#:*",
    b"d",
    b"disallo",
    b"disallo:/",
    b"disallow",
    b"disallow /",
    b"disallowed:/",
    b"dis allow:/",
    b"ddisallow:/",
    b"-disallow:/",
    b"\0disallow:/",
    b"disallow\x0B:/",
    b"a",
    b"allo:/",
    b"allow",
    b"allow ",
    b"allow /",
    b"allowed:/",
    b"#allow:/",
    b"\xEF\xBB\xBFallow:/",
    b":allow:/",
];

/// A file of many short lines with rules that mostly match the path. Now and
/// then name, path or file are refused.
pub(crate) fn dense_decide_case(random: &mut Random) -> DecideCase {
    let name = good_name(random);
    let path = path(random);
    let mut file = file(random, &name, &path);
    if random.one_in(2_500) {
        lengthen(random, &mut file);
    }
    let mut case = DecideCase { file, name, path };
    if random.percent(2) {
        case.name = refused_name(random);
    }
    match random.below(50) {
        0 => case.path = refused_path(random, b"/a"),
        1..=2 => {
            let at = random.between(1, case.path.len());
            case.path.insert(at, random.octet_of(b"\0\t\n\r\x1F #"));
        }
        _ => {}
    }
    case
}

/// Short lines up to about the most octets that a file may have.
fn lengthen(random: &mut Random, file: &mut Vec<u8>) {
    let length = random.between(MOST_OCTETS - 1, MOST_OCTETS + 2);
    let block = short_line(random, QUIET);
    let added = block.iter().copied().cycle().take(length - file.len());
    if random.one_in(2) {
        file.extend(added);
    } else {
        file.splice(0..0, added);
    }
}

/// What a file is drawn from, and what is written so far.
struct Dense<'a> {
    name: &'a [u8],
    path: &'a [u8],
    patterns: Vec<Vec<u8>>,
    file: Vec<u8>,
}

fn file(random: &mut Random, name: &[u8], path: &[u8]) -> Vec<u8> {
    let mut dense = Dense {
        name,
        path,
        patterns: Vec::new(),
        file: Vec::new(),
    };
    if random.one_in(8) {
        dense.file.extend(leading_mark(random));
    }
    let size = size(random);
    if random.percent(92) && size > 0 {
        dense.fillers(random);
        dense.agent_line(random);
        dense.fillers(random);
        dense.rule_line(random);
    }
    while dense.file.len() < size {
        match random.below(100) {
            0..=49 => dense.filler(random),
            50..=56 => dense.near_line(random),
            57..=66 => dense.agent_line(random),
            _ => dense.rule_line(random),
        }
    }
    dense.end(random);
    dense.file
}

/// About how many octets a file has.
fn size(random: &mut Random) -> usize {
    match random.below(40) {
        0 => 0,
        1..=6 => random.below(140),
        7..=8 => random.between(600, 5_000),
        _ => random.below(600),
    }
}

impl Dense<'_> {
    fn fillers(&mut self, random: &mut Random) {
        for _ in 0..random.below(3) {
            self.filler(random);
        }
    }

    /// Lines without a field, or what belongs to none.
    fn filler(&mut self, random: &mut Random) {
        let added = match random.below(12) {
            0..=4 => short_line(random, OCTETS),
            5 => again(random, OCTETS),
            6 => again(random, QUIET),
            7..=8 => quiet_lines(random),
            9 => [comment(random).as_slice(), ending(random)].concat(),
            10 => blanks(random, 90),
            _ => [behind(random).as_slice(), ending(random)].concat(),
        };
        self.file.extend(added);
    }

    /// A line that nearly has a field.
    fn near_line(&mut self, random: &mut Random) {
        let line = random.pick(&NEARLY);
        self.file.extend(spaces(random));
        self.file.extend(other_case(random, line));
        self.file.extend(behind(random));
        self.file.extend(ending(random));
    }

    fn agent_line(&mut self, random: &mut Random) {
        let value = agent(random, self.name);
        self.field_line(random, b"user-agent", &value);
    }

    fn rule_line(&mut self, random: &mut Random) {
        let field: &[u8] = random.pick(&[b"allow", b"disallow", b"disallow"]);
        let value = rule_value(random, self.path, &self.patterns);
        self.field_line(random, field, &value);
        self.patterns.push(value);
    }

    /// Mostly a line of its own. Now and then one bit of what stands in front of
    /// the value is wrong.
    fn field_line(&mut self, random: &mut Random, field: &[u8], value: &[u8]) {
        let begins = matches!(self.file.last(), None | Some(b'\r' | b'\n' | 0xBF));
        if !begins && random.percent(90) {
            self.file.extend(ending(random));
        }
        let mut line = around(random);
        line.extend(other_case(random, field));
        line.extend(around(random));
        line.push(b':');
        if random.one_in(16) {
            let at = random.below(line.len());
            line[at] ^= 1 << random.below(8);
        }
        line.extend(around(random));
        line.extend(value);
        line.extend(behind(random));
        self.file.extend(line);
        self.file.extend(ending(random));
    }

    /// The last line often has no ending, or is cut.
    fn end(&mut self, random: &mut Random) {
        match random.below(8) {
            0 => {
                let length = self.file.len().saturating_sub(random.between(1, 14));
                self.file.truncate(length);
            }
            1 => {
                let line = random.pick(&[b"user-agent:*".as_slice(), b"allow:/", b"disallow:*a"]);
                let length = random.between(1, line.len());
                self.file.extend(other_case(random, &line[..length]));
            }
            2..=3 => {
                while matches!(self.file.last(), Some(b'\r' | b'\n')) {
                    self.file.pop();
                }
            }
            _ => {}
        }
    }
}

fn ending(random: &mut Random) -> &'static [u8] {
    random.pick(&ENDINGS)
}

/// Up to four octets, now and then one with a bit changed, and mostly an
/// ending.
fn short_line(random: &mut Random, octets: &[u8]) -> Vec<u8> {
    let mut line: Vec<u8> = (0..random.below(5))
        .map(|_| random.octet_of(octets))
        .collect();
    if random.one_in(8) && !line.is_empty() {
        let at = random.below(line.len());
        line[at] ^= 1 << random.below(8);
    }
    if line.is_empty() || random.percent(85) {
        line.extend(ending(random));
    }
    line
}

/// One short line again and again.
fn again(random: &mut Random, octets: &[u8]) -> Vec<u8> {
    let most = if random.one_in(2) { 10 } else { 80 };
    short_line(random, octets).repeat(random.between(1, most))
}

/// Some blocks of 64 octets that hold many line endings and no field.
fn quiet_lines(random: &mut Random) -> Vec<u8> {
    let length = random.between(1, 200);
    let mut lines = Vec::new();
    while lines.len() < length {
        lines.extend(short_line(random, QUIET));
    }
    lines
}

fn comment(random: &mut Random) -> Vec<u8> {
    let text: &[u8] = random.pick(&[
        b"-",
        b"# ",
        b"x",
        b"disallow:/ ",
        b"\t",
        b"\xC3\xA9",
        b"%\0",
    ]);
    let length = match random.below(3) {
        0 => random.below(9),
        _ => random.below(201),
    };
    let text = text.iter().copied().cycle().take(length);
    std::iter::once(b'#').chain(text).collect()
}

/// One or more spaces and tabs.
fn blanks(random: &mut Random, most: usize) -> Vec<u8> {
    let octets: &[u8] = random.pick(&[b" ", b"\t", b" \t"]);
    (0..random.between(1, most))
        .map(|_| random.octet_of(octets))
        .collect()
}

/// What may stand in front of a field, and around its colon.
fn around(random: &mut Random) -> Vec<u8> {
    match random.below(12) {
        0 => blanks(random, 70),
        _ => spaces(random).to_vec(),
    }
}

/// What may stand behind a value: mostly nothing, or blanks, a comment, or
/// octets that aren't blanks.
fn behind(random: &mut Random) -> Vec<u8> {
    match random.below(20) {
        0 => blanks(random, 70),
        1..=3 => spaces(random).to_vec(),
        4 => comment(random),
        5 => [blanks(random, 3), comment(random)].concat(),
        6 => random
            .pick(&[
                b"\0".as_slice(),
                b"\t\0",
                b"\0\t ",
                b"\x0B",
                b"\x1F\t",
                b"\x7F",
            ])
            .to_vec(),
        _ => Vec::new(),
    }
}
