//! Questions about robots.txt files, for checking one evaluator against
//! another.
//!
//! For each of the four questions and for the program there are two sources:
//!
//! - `..._edges()` gives cases that are written down: sizes just inside and
//!   just outside every limit, refusals in every order, every octet;
//! - `..._cases(seed, count)` gives generated cases, valid and damaged. Case
//!   `i` depends on the seed and on `i` only; the same seed gives the same
//!   cases everywhere.
//!
//! A case holds a question and no answer. `batch_cases` gives lists of paths,
//! `exchange_cases` files in parts, with some questions each, `agent_values`
//! generated values of agent lines, `strings`, `after_slash` and
//! `after_slash_or_star` all texts up to a length, and `normal_length` the length
//! of a normalised path.

mod agents;
mod batch;
mod batch_damage;
mod batch_rules;
mod dense;
mod dense_values;
mod derived;
mod derived_files;
mod draft;
mod draft_edges;
mod edges;
mod exchange;
mod exchange_parts;
mod files;
mod patterns;
mod random;
mod small;
mod text;

pub use batch::BatchCase;
pub use draft_edges::draft_decide_edges;
pub use edges::{decide_edges, line_edges, match_edges, normalise_edges, program_edges};
pub use exchange::{ExchangeCase, Parts, Question};
pub use patterns::normal_length;
pub use small::{after_slash, after_slash_or_star, strings};

use agents::agent_value;
use batch::{batch_case, many_rules_case};
use dense::dense_decide_case;
use derived::derived_case;
use derived_files::{derived_decide_case, long_decide_case};
use draft::draft_decide_case;
use exchange::exchange_case;
use files::Setting;
use patterns::{path, pattern, theme};
use random::Random;
use text::{any_octets, name, MARK};

/// The seed that the tests use.
pub const SEED: u64 = 9_309;

/// A question for deciding.
#[derive(Debug, Clone, PartialEq, Eq)]
pub struct DecideCase {
    pub file: Vec<u8>,
    pub name: Vec<u8>,
    pub path: Vec<u8>,
}

/// A question for matching.
#[derive(Debug, Clone, PartialEq, Eq)]
pub struct MatchCase {
    pub pattern: Vec<u8>,
    pub path: Vec<u8>,
}

/// A question for normalising, with the octets of the buffer to lend.
#[derive(Debug, Clone, PartialEq, Eq)]
pub struct NormaliseCase {
    pub path: Vec<u8>,
    pub room: usize,
}

/// A question for the kind of a line.
#[derive(Debug, Clone, PartialEq, Eq)]
pub struct LineCase {
    pub line: Vec<u8>,
}

/// An input for the program.
#[derive(Debug, Clone, PartialEq, Eq)]
pub struct ProgramCase {
    pub input: Vec<u8>,
}

const DECIDE: u64 = 1;
const MATCH: u64 = 2;
const NORMALISE: u64 = 3;
const LINE: u64 = 4;
const PROGRAM: u64 = 5;
const DERIVED: u64 = 6;
const DERIVED_DECIDE: u64 = 7;
const LONG_DECIDE: u64 = 8;
const AGENT: u64 = 9;
const DENSE_DECIDE: u64 = 10;
const DRAFT_DECIDE: u64 = 11;
const EXCHANGE: u64 = 12;
const BATCH: u64 = 13;
const MANY_RULES: u64 = 14;

/// Draws `count` cases of one sort.
fn drawn<T>(
    seed: u64,
    sort: u64,
    count: usize,
    draw: impl Fn(&mut Random) -> T,
) -> impl Iterator<Item = T> {
    (0..count).map(move |index| draw(&mut Random::for_case(seed, sort, index)))
}

/// Generated questions for deciding. The path is mostly made from the file's
/// patterns, and the file often names the crawler.
pub fn decide_cases(seed: u64, count: usize) -> impl Iterator<Item = DecideCase> {
    drawn(seed, DECIDE, count, decide_case)
}

/// Generated questions for deciding, with files whose patterns are made from
/// the path: most are decided by a rule, many by one of several that match.
pub fn derived_decide_cases(seed: u64, count: usize) -> impl Iterator<Item = DecideCase> {
    drawn(seed, DERIVED_DECIDE, count, derived_decide_case)
}

/// The same with files about as long as one may be; half are too long.
pub fn long_decide_cases(seed: u64, count: usize) -> impl Iterator<Item = DecideCase> {
    drawn(seed, LONG_DECIDE, count, long_decide_case)
}

/// Generated questions for deciding, with files of many short lines: every sort
/// of line stands at every offset of a block of 64 octets.
pub fn dense_decide_cases(seed: u64, count: usize) -> impl Iterator<Item = DecideCase> {
    drawn(seed, DENSE_DECIDE, count, dense_decide_case)
}

/// Generated questions for deciding in the dialect of 1996: paths with stars and
/// dollars, patterns that are mostly beginnings of the path, and several groups
/// that apply. More than half are decided by a rule.
pub fn draft_decide_cases(seed: u64, count: usize) -> impl Iterator<Item = DecideCase> {
    drawn(seed, DRAFT_DECIDE, count, draft_decide_case)
}

/// Generated files with two neighbouring parts that may be exchanged (M-108), and
/// three questions about each. About half of the answers are by a rule of these
/// parts.
pub fn exchange_cases(seed: u64, count: usize) -> impl Iterator<Item = ExchangeCase> {
    drawn(seed, EXCHANGE, count, exchange_case)
}

/// Generated lists of 0 to 400 paths (M-101), with files as single questions have
/// them, in both dialects and in unknown ones. Some of the ends are damaged, and
/// some of the answer slices too short.
pub fn batch_cases(seed: u64, count: usize) -> impl Iterator<Item = BatchCase> {
    drawn(seed, BATCH, count, batch_case)
}

/// The same with short lists, and files in which hundreds or thousands of rules
/// apply: often a multiple of 512, one more or one less.
pub fn many_rules_cases(seed: u64, count: usize) -> impl Iterator<Item = BatchCase> {
    drawn(seed, MANY_RULES, count, many_rules_case)
}

/// Generated questions for matching.
pub fn match_cases(seed: u64, count: usize) -> impl Iterator<Item = MatchCase> {
    drawn(seed, MATCH, count, match_case)
}

/// Generated questions for matching, with patterns that are made from the
/// path, most of them damaged.
pub fn derived_match_cases(seed: u64, count: usize) -> impl Iterator<Item = MatchCase> {
    drawn(seed, DERIVED, count, derived_case)
}

/// Generated questions for normalising. The room is often the normalised
/// length or one less.
pub fn normalise_cases(seed: u64, count: usize) -> impl Iterator<Item = NormaliseCase> {
    drawn(seed, NORMALISE, count, normalise_case)
}

/// Generated questions for the kind of a line.
pub fn line_cases(seed: u64, count: usize) -> impl Iterator<Item = LineCase> {
    drawn(seed, LINE, count, line_case)
}

/// Generated values of agent lines, as they stand behind the colon: names of
/// all lengths, versions and other text behind them, "*" and what begins with
/// it, and every octet in every place.
pub fn agent_values(seed: u64, count: usize) -> impl Iterator<Item = Vec<u8>> {
    drawn(seed, AGENT, count, agent_value)
}

/// Generated inputs for the program.
pub fn program_cases(seed: u64, count: usize) -> impl Iterator<Item = ProgramCase> {
    drawn(seed, PROGRAM, count, program_case)
}

fn decide_case(random: &mut Random) -> DecideCase {
    let name = name(random);
    let mut setting = Setting::new(random, &name);
    let file = setting.file(random);
    let path = path(random, &setting.theme, &setting.patterns);
    DecideCase { file, name, path }
}

fn match_case(random: &mut Random) -> MatchCase {
    let theme = theme(random);
    let mut patterns = vec![pattern(random, &theme)];
    let path = path(random, &theme, &patterns);
    let pattern = match random.below(30) {
        0 => any_octets(random, 10),
        _ => patterns.remove(0),
    };
    MatchCase { pattern, path }
}

fn normalise_case(random: &mut Random) -> NormaliseCase {
    let theme = theme(random);
    let patterns = [pattern(random, &theme)];
    let path = path(random, &theme, &patterns);
    let normal = normal_length(&path);
    let room = match random.below(8) {
        0..=2 => normal,
        3 => normal.saturating_sub(1),
        4 => random.below(normal + 1),
        _ => normal + random.below(20),
    };
    NormaliseCase { path, room }
}

fn line_case(random: &mut Random) -> LineCase {
    let name = name(random);
    let mut setting = Setting::new(random, &name);
    let mut line = setting.line(random);
    match random.below(40) {
        0 => {
            line.splice(0..0, MARK.iter().copied());
        }
        1 => {
            let at = random.below(line.len() + 1);
            line.insert(at, random.octet_of(b"\r\n"));
        }
        2..=4 => {
            let at = random.below(line.len() + 1);
            line.insert(at, random.octet());
        }
        _ => {}
    }
    LineCase { line }
}

fn program_case(random: &mut Random) -> ProgramCase {
    let case = decide_case(random);
    let ending: &[u8] = match random.below(30) {
        0 => b"\r\n",
        1 => b"\r",
        _ => b"\n",
    };
    let mut input = [&case.name, ending, &case.path, b"\n", &case.file].concat();
    if random.one_in(30) {
        let length = random.below(input.len() + 1);
        input.truncate(length);
    }
    ProgramCase { input }
}
