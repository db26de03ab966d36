//! What both tests need: a splitting into lines of their own.

use evaluator::line_kind;

pub const MARK: &[u8] = b"\xEF\xBB\xBF";

/// The lines of a file: every ending is made an LF first.
pub fn lines(file: &[u8]) -> Vec<Vec<u8>> {
    let text = file.strip_prefix(MARK).unwrap_or(file);
    let mut one_ending = Vec::new();
    for (at, octet) in text.iter().enumerate() {
        match octet {
            b'\r' if text.get(at + 1) == Some(&b'\n') => {}
            b'\r' => one_ending.push(b'\n'),
            octet => one_ending.push(*octet),
        }
    }
    let mut lines: Vec<Vec<u8>> = one_ending
        .split(|octet| *octet == b'\n')
        .map(<[u8]>::to_vec)
        .collect();
    if lines.last().is_some_and(Vec::is_empty) {
        lines.pop();
    }
    lines
}

/// A line with its kind's number and its value.
pub struct Told {
    pub line: Vec<u8>,
    pub kind: usize,
    pub value: Vec<u8>,
}

impl Told {
    pub fn is_agent(&self) -> bool {
        (4..=5).contains(&self.kind)
    }

    pub fn is_rule(&self) -> bool {
        self.kind >= 6
    }

    /// What a readable agent line names: "*", or the value's name.
    pub fn name(&self) -> &[u8] {
        match (self.kind, self.value.as_slice()) {
            (4, b"*") => b"*",
            (4, value) => name_of(value),
            _ => b"",
        }
    }

    /// Names the crawler, in whatever letter case.
    pub fn names(&self, name: &[u8]) -> bool {
        self.kind == 4 && self.name().eq_ignore_ascii_case(name)
    }

    /// Names the crawler, and something stands behind the name.
    pub fn names_and_more(&self, name: &[u8]) -> bool {
        self.names(name) && self.value.len() > name.len()
    }
}

/// The letters, "-" and "_" at a value's beginning.
pub fn name_of(value: &[u8]) -> &[u8] {
    let of_name = |octet: &u8| octet.is_ascii_alphabetic() || b"-_".contains(octet);
    value.split(|octet| !of_name(octet)).next().unwrap_or(b"")
}

/// The lines of a file with their kinds.
pub fn told(file: &[u8]) -> Vec<Told> {
    lines(file)
        .into_iter()
        .map(|line| {
            let told = line_kind(&line);
            let value = line[told.place..told.place + told.length].to_vec();
            Told {
                line,
                kind: told.kind,
                value,
            }
        })
        .collect()
}

/// The file with the sides of all its rules changed over, line by line. It
/// starts with a mark, so that no other one is taken for it.
pub fn sides_changed(lines: &[Told]) -> Vec<u8> {
    let mut file = MARK.to_vec();
    for line in lines {
        match line.kind {
            6..=8 => file.extend([b"disallow:", line.value.as_slice()].concat()),
            9..=11 => file.extend([b"allow:", line.value.as_slice()].concat()),
            _ => file.extend(&line.line),
        }
        file.push(b'\n');
    }
    file
}
