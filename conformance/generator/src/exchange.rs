//! Files with two neighbouring parts that may be exchanged (document 02, M-108),
//! and questions about them.

use crate::derived::damage;
use crate::derived_files::{refused_name, refused_path};
use crate::exchange_parts::Writer;
use crate::patterns::{mended, path as any_path, robots_path, theme};
use crate::random::Random;
use crate::text::{good_name, other_case, MARK};

/// Most octets of a path: many short questions tell more here than few long ones.
const MOST_PATH: usize = 90;

/// A file in five parts. `one` and `two` are a group each, or several whole ones,
/// and may be exchanged.
#[derive(Debug, Clone, PartialEq, Eq)]
pub struct Parts {
    pub mark: Vec<u8>,
    pub front: Vec<u8>,
    pub one: Vec<u8>,
    pub two: Vec<u8>,
    pub rest: Vec<u8>,
}

impl Parts {
    pub fn file(&self) -> Vec<u8> {
        self.with(&self.one, &self.two)
    }

    /// The file with `two` in front of `one`.
    pub fn exchanged(&self) -> Vec<u8> {
        self.with(&self.two, &self.one)
    }

    fn with(&self, first: &[u8], second: &[u8]) -> Vec<u8> {
        [&self.mark, &self.front, first, second, &self.rest].concat()
    }
}

/// Who asks for what.
#[derive(Debug, Clone, PartialEq, Eq)]
pub struct Question {
    pub name: Vec<u8>,
    pub path: Vec<u8>,
}

/// A file, and questions about it. The first is that of the crawler whom many of
/// the groups name, for the path that many of the rules match.
#[derive(Debug, Clone, PartialEq, Eq)]
pub struct ExchangeCase {
    pub parts: Parts,
    pub questions: Vec<Question>,
}

pub(crate) fn exchange_case(random: &mut Random) -> ExchangeCase {
    let name = good_name(random);
    let path = short_path(random);
    let mut writer = Writer::new(random, &name, &path);
    let mut parts = Parts {
        mark: Vec::new(),
        front: writer.front(random),
        one: writer.exchanged_part(random),
        two: writer.exchanged_part(random),
        rest: writer.rest(random),
    };
    // octets of a mark that begin a file are its mark, and don't travel with a group
    let begins = parts.file().starts_with(MARK) || parts.exchanged().starts_with(MARK);
    if begins || random.one_in(4) {
        parts.mark = MARK.to_vec();
    }
    let questions = questions(random, &name, &path);
    ExchangeCase { parts, questions }
}

fn short_path(random: &mut Random) -> Vec<u8> {
    let theme = theme(random);
    let mut path = any_path(random, &theme, &[]);
    path.truncate(MOST_PATH);
    mended(random, path)
}

/// The crawler's question, its question for another path, and another crawler's.
/// Now and then the last one is refused.
fn questions(random: &mut Random, name: &[u8], path: &[u8]) -> Vec<Question> {
    let other = match random.below(2) {
        0 => b"stranger".to_vec(),
        _ => good_name(random),
    };
    let mut last = question(&other, path);
    if random.percent(5) {
        last.name = refused_name(random);
    }
    if random.percent(5) {
        last.path = refused_path(random, b"/a*");
    }
    let near = near_path(random, path);
    let again = other_case(random, name);
    vec![question(name, path), question(&again, &near), last]
}

fn question(name: &[u8], path: &[u8]) -> Question {
    Question {
        name: name.to_vec(),
        path: path.to_vec(),
    }
}

/// The path with a change, or the file's own.
pub(crate) fn near_path(random: &mut Random, path: &[u8]) -> Vec<u8> {
    let mut near = path.to_vec();
    match random.below(10) {
        0 => near = robots_path(random),
        1..=3 => near.truncate(random.between(1, path.len())),
        4..=6 => near.push(random.octet_of(b"ab/.%*$")),
        _ => damage(random, &mut near),
    }
    mended(random, near)
}
