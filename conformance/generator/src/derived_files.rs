//! Files whose patterns are made from the path.

use crate::agents::{behind_name, unreadable_agent};
use crate::derived::{damage, stretches};
use crate::files::{comment, field_line, ENDINGS};
use crate::patterns::{damaged_path, path, theme};
use crate::random::Random;
use crate::text::{
    escape_of, good_name, name, other_case, spaces, MARK, MOST_NAME, MOST_OCTETS, MOST_PATH,
};
use crate::DecideCase;

/// A path, and a file of groups whose rules mostly match it, many of them with
/// equal weights. Now and then name and path are refused, or one of them.
pub(crate) fn derived_decide_case(random: &mut Random) -> DecideCase {
    let name = good_name(random);
    let theme = theme(random);
    let path = path(random, &theme, &[]);
    let file = file(random, &name, &path);
    let mut case = DecideCase { file, name, path };
    if random.percent(4) {
        case.name = refused_name(random);
    }
    if random.percent(8) {
        case.path = refused_path(random, &theme);
    }
    case
}

/// The same with a file about as long as one may be. What is added stands in
/// front, behind, or is the file again and again.
pub(crate) fn long_decide_case(random: &mut Random) -> DecideCase {
    let mut case = derived_decide_case(random);
    let length = random.between(MOST_OCTETS - 2, MOST_OCTETS + 3);
    let left = length - case.file.len();
    let block: Vec<u8> = match random.below(7) {
        0 => b"#".to_vec(),
        1 => b"\n".to_vec(),
        2 => b" # user-agent: *\r\n".to_vec(),
        3 => b"user-agent: -\nuser-agent: _/2.1\n".to_vec(),
        4 => b"x: /\ndisallow: x\r".to_vec(),
        5 => b"allow: *\ndisallow: *a\n".to_vec(),
        _ => [case.file.as_slice(), b"\n"].concat(),
    };
    let mut added: Vec<u8> = block.iter().copied().cycle().take(left - 1).collect();
    if random.one_in(2) {
        added.push(b'\n');
        added.extend(&case.file);
        case.file = added;
    } else {
        case.file.push(b'\n');
        case.file.extend(added);
    }
    case
}

fn file(random: &mut Random, name: &[u8], path: &[u8]) -> Vec<u8> {
    let mut lines = Vec::new();
    let mut patterns = Vec::new();
    for _ in 0..random.between(1, 5) {
        for _ in 0..random.between(1, 3) {
            let agent = agent(random, name);
            lines.push(field_line(random, b"user-agent", &agent));
            lines.extend(between(random));
        }
        for _ in 0..random.below(5) {
            let pattern = rule_value(random, path, &patterns);
            let side: &[u8] = random.pick(&[b"allow", b"disallow"]);
            lines.push(field_line(random, side, &pattern));
            patterns.push(pattern);
            lines.extend(between(random));
        }
    }
    joined(random, lines)
}

/// The lines with their endings, now and then behind a mark.
pub(crate) fn joined(random: &mut Random, lines: Vec<Vec<u8>>) -> Vec<u8> {
    let mut file = Vec::new();
    if random.one_in(8) {
        file.extend(MARK);
    }
    let one_ending = random.percent(70).then(|| random.pick(&ENDINGS));
    for line in lines {
        file.extend(line);
        file.extend(one_ending.unwrap_or_else(|| random.pick(&ENDINGS)));
    }
    if random.one_in(2) {
        file.pop();
    }
    file
}

pub(crate) fn agent(random: &mut Random, name: &[u8]) -> Vec<u8> {
    match random.below(20) {
        0..=5 => other_case(random, name),
        6 | 7 => [other_case(random, name), behind_name(random)].concat(),
        8..=12 => b"*".to_vec(),
        13..=15 => good_name(random),
        16 => [good_name(random), behind_name(random)].concat(),
        17 => unreadable_agent(random, name),
        18 => name[..name.len() / 2].to_vec(),
        _ => Vec::new(),
    }
}

/// A line that is neither an agent line nor a rule, sometimes.
pub(crate) fn between(random: &mut Random) -> Option<Vec<u8>> {
    let line = match random.below(20) {
        0 => spaces(random).to_vec(),
        1 => comment(random),
        2 => b"allow /".to_vec(),
        3 => field_line(random, b"sitemap", b"/"),
        _ => return None,
    };
    Some(line)
}

/// A pattern made from the path, damaged or as heavy as one before; now and
/// then an empty one or one that is unreadable.
pub(crate) fn rule_value(random: &mut Random, path: &[u8], before: &[Vec<u8>]) -> Vec<u8> {
    let mut pattern = match (random.below(12), before.len()) {
        (0, _) => return Vec::new(),
        (1, _) => {
            let front: &[u8] = random.pick(&[b" x", b"$", b"$*", b"*\x80", b"*\xC0"]);
            return [front, path].concat();
        }
        (2..=5, count @ 1..) => {
            let earlier = before[random.below(count)].clone();
            return as_heavy(random, earlier);
        }
        (6 | 7, _) => path[..random.between(path.len().min(1), path.len())].to_vec(),
        _ => stretches(random, path),
    };
    if random.percent(20) {
        damage(random, &mut pattern);
    }
    pattern
}

/// A pattern of the same weight: one letter written as an escape, a star for
/// one octet or for the first "/", or the same again.
pub(crate) fn as_heavy(random: &mut Random, mut pattern: Vec<u8>) -> Vec<u8> {
    let letters: Vec<usize> = (1..pattern.len())
        .filter(|at| pattern[*at].is_ascii_alphabetic() && !pattern[..*at].ends_with(b"%"))
        .filter(|at| *at < 2 || pattern[at - 2] != b'%')
        .collect();
    if pattern.starts_with(b"/") && random.one_in(6) {
        pattern[0] = b'*';
        return pattern;
    }
    if letters.is_empty() || random.one_in(3) {
        return pattern;
    }
    let at = letters[random.below(letters.len())];
    let octet = pattern[at];
    let instead = match random.below(2) {
        0 => escape_of(random, octet),
        _ => b"*".to_vec(),
    };
    pattern.splice(at..=at, instead);
    pattern
}

pub(crate) fn refused_name(random: &mut Random) -> Vec<u8> {
    match random.below(4) {
        0 => Vec::new(),
        1 => vec![b'x'; MOST_NAME + 1],
        2 => b"*".to_vec(),
        _ => [
            name(random).as_slice(),
            &[random.octet_of(b"\0 .*/09:@[`{\x7F\x80\xFF")],
        ]
        .concat(),
    }
}

pub(crate) fn refused_path(random: &mut Random, theme: &[u8]) -> Vec<u8> {
    match random.below(8) {
        0 => Vec::new(),
        1 => vec![b'/'; MOST_PATH + 1],
        2 => theme[1..].to_vec(),
        3..=5 => [theme, &[random.octet_of(b"\0\t\n\r\x1F #")], b"a"].concat(),
        _ => damaged_path(random, theme),
    }
}
