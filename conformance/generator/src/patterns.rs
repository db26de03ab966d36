//! Patterns, and paths that have something to do with them.

use crate::random::Random;
use crate::text::{any_octets, escape, escape_of, ill_formed, well_formed, MOST_PATH};

/// A path of few letters, from which a case takes its patterns and its path,
/// so that they meet often.
pub(crate) fn theme(random: &mut Random) -> Vec<u8> {
    let mut theme = b"/".to_vec();
    // A block again and again, which makes many tries.
    if random.one_in(10) {
        let block = random.pick(&[b"a".as_slice(), b"ab", b"aab", b"a/"]);
        theme.extend(block.repeat(random.between(4, 60)));
        return theme;
    }
    let length = match random.below(40) {
        0 => random.between(30, 80),
        _ => random.below(10),
    };
    for _ in 0..length {
        let octet = random.octet_of(b"aaaabbb//.?c");
        theme.push(octet);
    }
    theme
}

/// A pattern, readable or not, as it stands in a rule. About a fifth of them
/// begin with a star.
pub(crate) fn pattern(random: &mut Random, theme: &[u8]) -> Vec<u8> {
    let mut pattern = match random.below(100) {
        0..=3 => return short(random),
        4..=59 => variant(random, theme),
        _ => free(random),
    };
    if random.percent(25) {
        pattern.extend(random.pick(&[
            b"$".as_slice(),
            b"$",
            b"$",
            b"*$",
            b"$$",
            b"%24",
            b"%2$",
            b"%",
            b"%4",
            b"%7e",
            b"**",
        ]));
    }
    pattern
}

/// Stars with hardly anything beside them, readable or not.
fn short(random: &mut Random) -> Vec<u8> {
    match random.below(8) {
        0 => [b"*", ill_formed(random)].concat(),
        1 => [b"$", token(random).as_slice()].concat(),
        _ => random
            .pick(&[b"*".as_slice(), b"**", b"*$", b"**$", b"*/", b"*$*", b"$*"])
            .to_vec(),
    }
}

/// Stars for the beginning or the inside of a pattern.
pub(crate) fn stars(random: &mut Random) -> &'static [u8] {
    random.pick(&[b"*", b"*", b"*", b"*", b"**", b"***"])
}

/// A beginning of the theme, with stars for some of its stretches, now and then
/// for the first one.
fn variant(random: &mut Random, theme: &[u8]) -> Vec<u8> {
    let length = random.between(1, theme.len());
    let mut pattern = theme[..length].to_vec();
    for _ in 0..random.below(4) {
        let start = random.between(1, pattern.len());
        let end = random.between(start, pattern.len().min(start + 3));
        pattern.splice(start..end, stars(random).iter().copied());
    }
    if random.percent(20) {
        let end = random.below(pattern.len().min(4) + 1);
        pattern.splice(..end, stars(random).iter().copied());
    }
    if random.percent(30) {
        pattern = respelt(random, &pattern);
    }
    if random.percent(10) {
        let at = random.between(1, pattern.len());
        let token = token(random);
        pattern.splice(at..at, token);
    }
    pattern
}

/// Tokens that have nothing to do with the theme.
fn free(random: &mut Random) -> Vec<u8> {
    let mut pattern = match random.below(20) {
        0 => Vec::new(),
        1..=4 => stars(random).to_vec(),
        _ => b"/".to_vec(),
    };
    let tokens = match random.below(50) {
        0 => random.between(40, 120),
        _ => random.below(9),
    };
    for _ in 0..tokens {
        pattern.extend(token(random));
    }
    pattern
}

fn token(random: &mut Random) -> Vec<u8> {
    match random.below(100) {
        0..=39 => vec![random.octet_of(b"ab")],
        40..=51 => vec![random.octet_of(b"/.?=&-_~!+,:;@'()[]cAZ09")],
        52..=66 => vec![b'*'; [1, 1, 1, 2, 3][random.below(5)]],
        67..=69 => b"$".to_vec(),
        70..=85 => escape(random),
        86..=91 => well_formed(random).to_vec(),
        92 => ill_formed(random).to_vec(),
        93 => vec![random.octet()],
        _ => {
            let octet = random.octet_of(b"ab");
            vec![octet; random.between(1, 8)]
        }
    }
}

/// The same text with some octets written as escapes. Stars, end marks and
/// escapes that are there already stay.
fn respelt(random: &mut Random, text: &[u8]) -> Vec<u8> {
    let mut spelt = Vec::new();
    for octet in text {
        let may = octet.is_ascii_alphanumeric() || *octet >= 0x80;
        if may && random.one_in(5) {
            spelt.extend(escape_of(random, *octet));
        } else {
            spelt.push(*octet);
        }
    }
    spelt
}

/// A path for a question about these patterns.
pub(crate) fn path(random: &mut Random, theme: &[u8], patterns: &[Vec<u8>]) -> Vec<u8> {
    let path = match random.below(100) {
        0..=29 => theme_path(random, theme),
        30..=79 => match patterns.len() {
            0 => theme_path(random, theme),
            count => {
                let chosen = &patterns[random.below(count)];
                filled(random, chosen)
            }
        },
        80..=89 => free(random),
        90..=94 => robots_path(random),
        95..=96 => long_path(random),
        _ => damaged_path(random, theme),
    };
    if random.percent(92) {
        mended(random, path)
    } else {
        path
    }
}

fn theme_path(random: &mut Random, theme: &[u8]) -> Vec<u8> {
    let mut path = theme.to_vec();
    if random.one_in(3) {
        path = respelt(random, &path);
    }
    if random.one_in(3) {
        path.extend(tail(random));
    }
    path
}

/// The pattern with something for each star, mostly a path that it matches. A
/// star at the beginning stands for the "/" too, where none follows it.
fn filled(random: &mut Random, pattern: &[u8]) -> Vec<u8> {
    let marked = pattern.ends_with(b"$");
    let part = &pattern[..pattern.len() - usize::from(marked)];
    let mut path = Vec::new();
    let part = if random.one_in(4) {
        respelt(random, part)
    } else {
        part.to_vec()
    };
    for octet in part {
        match octet {
            b'*' => path.extend(filling(random)),
            _ if random.one_in(60) => path.push(random.octet_of(b"ab/.%*$")),
            _ => path.push(octet),
        }
    }
    if pattern.starts_with(b"*") && path.first() != Some(&b'/') {
        path.insert(0, b'/');
    }
    if random.percent(if marked { 15 } else { 40 }) {
        path.extend(tail(random));
    }
    path
}

fn filling(random: &mut Random) -> Vec<u8> {
    match random.below(20) {
        0..=6 => Vec::new(),
        7..=16 => (0..random.below(5))
            .map(|_| random.octet_of(b"aab/"))
            .collect(),
        17 => vec![b'a'; random.between(5, 40)],
        _ => token(random),
    }
}

fn tail(random: &mut Random) -> Vec<u8> {
    let tokens = random.below(4);
    (0..tokens).flat_map(|_| token(random)).collect()
}

/// The file's own path, spelt in some way, and its neighbours.
pub(crate) fn robots_path(random: &mut Random) -> Vec<u8> {
    let mut path = b"/robots.txt".to_vec();
    if random.one_in(2) {
        path = respelt(random, &path);
    }
    let end: &[u8] = random.pick(&[b"", b"", b"", b"", b"?x", b"/", b"$", b"%", b"t"]);
    path.extend(end);
    if random.one_in(8) {
        path.pop();
    }
    if random.one_in(8) {
        path[0] = b'%';
    }
    path
}

/// A path about as long as one may be.
fn long_path(random: &mut Random) -> Vec<u8> {
    let length = match random.below(4) {
        0 => random.between(200, MOST_PATH),
        _ => random.between(MOST_PATH - 2, MOST_PATH + 2),
    };
    let block = match random.below(5) {
        0 => b"a".to_vec(),
        1 => b"%".to_vec(),
        2 => b"aab".to_vec(),
        3 => token(random),
        _ => any_octets(random, 9),
    };
    let mut path = b"/".to_vec();
    while path.len() < length {
        path.extend(if block.is_empty() {
            b"a".as_slice()
        } else {
            &block
        });
    }
    path.truncate(length);
    path
}

/// A path that is refused, or nearly.
pub(crate) fn damaged_path(random: &mut Random, theme: &[u8]) -> Vec<u8> {
    let mut path = theme.to_vec();
    match random.below(6) {
        0 => path.clear(),
        1 => {
            path.remove(0);
        }
        2 => path[0] = random.octet(),
        3 => {
            let at = random.between(1, path.len());
            path.insert(at, random.octet_of(b"\0\t\n\r #!\x1F"));
        }
        4 => {
            let at = random.between(1, path.len());
            path.insert(at, random.octet());
        }
        _ => path = any_octets(random, 12),
    }
    path
}

/// Puts letters for the octets that no path may hold, so that most questions
/// are answered.
pub(crate) fn mended(random: &mut Random, mut path: Vec<u8>) -> Vec<u8> {
    for octet in &mut path {
        if *octet <= 0x20 || *octet == b'#' {
            *octet = random.octet_of(b"ab");
        }
    }
    if path.first() != Some(&b'/') {
        path.insert(0, b'/');
    }
    path
}

/// The length of the normalised path.
pub fn normal_length(path: &[u8]) -> usize {
    let mut length = 0;
    let mut at = 0;
    while at < path.len() {
        let digits = path.get(at + 1..at + 3).unwrap_or(&[]);
        let is_escape =
            path[at] == b'%' && digits.len() == 2 && digits.iter().all(u8::is_ascii_hexdigit);
        length += if is_escape {
            let text = String::from_utf8_lossy(digits);
            let meant = u8::from_str_radix(&text, 16).unwrap_or(0);
            at += 2;
            match meant {
                b'-' | b'.' | b'_' | b'~' => 1,
                _ if meant.is_ascii_alphanumeric() => 1,
                _ => 3,
            }
        } else {
            match path[at] {
                b'%' | b'*' | b'$' | 0x7F.. => 3,
                _ => 1,
            }
        };
        at += 1;
    }
    length
}
