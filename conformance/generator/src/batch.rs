//! Lists of paths for one call (document 02, M-101).

use crate::batch_damage::{damage_ends, lengths};
use crate::batch_rules::many_rules;
use crate::dense::dense_decide_case;
use crate::derived_files::{derived_decide_case, refused_name, refused_path, rule_value};
use crate::draft::draft_decide_case;
use crate::exchange::near_path;
use crate::files::{field_line, Setting};
use crate::patterns::{mended, path, robots_path};
use crate::random::Random;
use crate::text::{escape_of, name, MOST_OCTETS};
use crate::DecideCase;

/// A question about a list of paths.
#[derive(Debug, Clone, PartialEq, Eq)]
pub struct BatchCase {
    pub dialect: usize,
    pub file: Vec<u8>,
    pub name: Vec<u8>,
    /// The octets of all paths, joined.
    pub paths: Vec<u8>,
    /// Where each path ends.
    pub ends: Vec<usize>,
    /// Of the three answer slices.
    pub lengths: [usize; 3],
}

/// A file, and what the paths of a list are made from.
pub(crate) struct Source {
    pub(crate) file: Vec<u8>,
    pub(crate) name: Vec<u8>,
    /// A path that isn't refused.
    pub(crate) theme: Vec<u8>,
    pub(crate) patterns: Vec<Vec<u8>>,
}

/// Most octets of a theme.
const MOST_THEME: usize = 90;

/// The octets of a file about which few paths are asked, and how many these are.
const LONG_FILE: usize = 20_000;
const FEW: usize = 4;

pub(crate) fn batch_case(random: &mut Random) -> BatchCase {
    let mut source = source(random);
    if random.one_in(2) {
        own_group(random, &mut source);
    }
    if random.one_in(100) {
        lengthen(random, &mut source.file);
    }
    let most = match source.file.len() {
        LONG_FILE.. => FEW,
        _ => usize::MAX,
    };
    let count = list_length(random).min(most);
    asked(random, source, count)
}

pub(crate) fn many_rules_case(random: &mut Random) -> BatchCase {
    let source = many_rules(random);
    let count = match random.below(10) {
        0 if source.file.len() < LONG_FILE => random.between(9, 40),
        _ => random.below(9),
    };
    asked(random, source, count)
}

/// The question about a list of so many paths, now and then a refused one.
fn asked(random: &mut Random, source: Source, count: usize) -> BatchCase {
    let list = list(random, &source, count);
    let mut paths = list.concat();
    let mut ends = ends(&list);
    if random.percent(8) {
        damage_ends(random, &mut paths, &mut ends);
    }
    let mut name = source.name;
    if random.percent(2) {
        name = refused_name(random);
    }
    BatchCase {
        dialect: dialect(random),
        lengths: lengths(random, ends.len()),
        file: source.file,
        name,
        paths,
        ends,
    }
}

/// 0 or 1, now and then neither, in however many of its bits it looks like them.
fn dialect(random: &mut Random) -> usize {
    const UNKNOWN: [u64; 9] = [
        2,
        3,
        20,
        255,
        256,
        1 << 32,
        (1 << 32) + 1,
        1 << 63,
        u64::MAX,
    ];
    match random.below(25) {
        0 => UNKNOWN[random.below(UNKNOWN.len())] as usize,
        other => other % 2,
    }
}

/// A file of one of the sorts that single questions have.
fn source(random: &mut Random) -> Source {
    let case = match random.below(20) {
        0..=6 => return small_source(random),
        7..=10 => derived_decide_case(random),
        11..=13 => dense_decide_case(random),
        _ => draft_decide_case(random),
    };
    let DecideCase { file, name, path } = case;
    let mut theme = mended(random, path);
    theme.truncate(MOST_THEME);
    Source {
        patterns: patterns(&file),
        file,
        name,
        theme,
    }
}

/// What stands behind a colon in the file's lines, if it begins like a pattern.
fn patterns(file: &[u8]) -> Vec<Vec<u8>> {
    let lines = file.split(|octet| b"\r\n".contains(octet));
    let values = lines.filter_map(|line| {
        let colon = line.iter().position(|octet| *octet == b':')?;
        let value = line[colon + 1..].trim_ascii_start();
        let is_end = |octet: &u8| b" \t#".contains(octet);
        let end = value.iter().position(is_end).unwrap_or(value.len());
        matches!(value.first(), Some(b'/' | b'*')).then(|| value[..end].to_vec())
    });
    values.collect()
}

fn small_source(random: &mut Random) -> Source {
    let name = name(random);
    let mut setting = Setting::new(random, &name);
    Source {
        file: setting.file(random),
        name,
        theme: setting.theme,
        patterns: setting.patterns,
    }
}

/// Adds a group that names the crawler, so that some rule mostly applies.
fn own_group(random: &mut Random, source: &mut Source) {
    let mut lines = vec![Vec::new(), field_line(random, b"user-agent", &source.name)];
    for _ in 0..random.between(1, 4) {
        let side: &[u8] = random.pick(&[b"allow", b"disallow"]);
        let pattern = rule_value(random, &source.theme, &source.patterns);
        lines.push(field_line(random, side, &pattern));
        source.patterns.push(pattern);
    }
    source.file.extend(lines.join(b"\n".as_slice()));
}

/// Adds remarks up to about the most octets that a file may have.
fn lengthen(random: &mut Random, file: &mut Vec<u8>) {
    let length = random.between(MOST_OCTETS - 2, MOST_OCTETS + 3);
    let block = random.pick(&[b"\n#".as_slice(), b"\r\n# disallow: /"]);
    let remarks = block.iter().copied().cycle();
    file.extend(remarks.take(length.saturating_sub(file.len())));
}

fn list_length(random: &mut Random) -> usize {
    match random.below(100) {
        0..=5 => 0,
        6..=13 => 1,
        14..=89 => random.between(2, 12),
        90..=97 => random.between(13, 60),
        _ => random.between(300, 400),
    }
}

fn list(random: &mut Random, source: &Source, count: usize) -> Vec<Vec<u8>> {
    let mut list: Vec<Vec<u8>> = Vec::new();
    while list.len() < count {
        let known = list.len();
        match random.below(20) {
            0 => list.push(Vec::new()),
            1 => list.push(refused_path(random, &source.theme)),
            2 => list.push(robots_path(random)),
            3 if known > 0 => list.push(list[random.below(known)].clone()),
            4..=6 => list.extend(cut(random, source)),
            7..=9 => list.push(near_path(random, &source.theme)),
            10..=13 => list.push(pattern_itself(random, source)),
            _ => list.push(path(random, &source.theme, &source.patterns)),
        }
    }
    list.truncate(count);
    list
}

/// The octets of a pattern as a path, perhaps with something behind them: in the
/// dialect of 1996 the pattern matches it.
fn pattern_itself(random: &mut Random, source: &Source) -> Vec<u8> {
    let mut made = match source.patterns.len() {
        0 => source.theme.clone(),
        count => source.patterns[random.below(count)].clone(),
    };
    let end: &[u8] = random.pick(&[b"", b"", b"a", b"/", b"%", b"*"]);
    made.extend(end);
    mended(random, made)
}

/// A path in two, mostly inside the escape that its last octet is spelt as: the
/// second begins with what the first lacks.
fn cut(random: &mut Random, source: &Source) -> [Vec<u8>; 2] {
    let mut whole = match random.below(2) {
        0 => pattern_itself(random, source),
        _ => path(random, &source.theme, &source.patterns),
    };
    if whole.len() > 1 && random.percent(75) {
        let last = whole.pop().unwrap_or(b'a');
        whole.extend(escape_of(random, last));
    }
    let near = whole.len().min(random.between(1, 2));
    let at = match random.below(4) {
        0 => random.below(whole.len() + 1),
        _ => whole.len() - near,
    };
    let end: &[u8] = random.pick(&[b"", b"", b"/b", b"a"]);
    let rest = [&whole[at..], end].concat();
    whole.truncate(at);
    [whole, rest]
}

/// Where each path of the list ends once they are joined.
fn ends(list: &[Vec<u8>]) -> Vec<usize> {
    let ends = list.iter().scan(0, |end, path| {
        *end += path.len();
        Some(*end)
    });
    ends.collect()
}
