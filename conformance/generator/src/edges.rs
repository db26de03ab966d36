//! Cases that are written down: every limit, every octet, every order.

use crate::patterns::normal_length;
use crate::text::{MARK, MOST_INPUT, MOST_NAME, MOST_OCTETS, MOST_PATH};
use crate::{DecideCase, LineCase, MatchCase, NormaliseCase, ProgramCase};

const FILE: &[u8] = b"user-agent: a\ndisallow: /a\nallow: x\n";

/// Patterns that begin with a star, or with the "$" that none begins with.
const STAR_FIRST: [&[u8]; 18] = [
    b"*", b"**", b"*$", b"**$", b"*/", b"*a", b"*a$", b"**a", b"*a*", b"*%", b"*$*", b"*$$", b"$",
    b"$*", b"$/", b"*#", b"* a", b"*\xC3",
];

/// Values of agent lines: names with something behind them, "*", and what names
/// nobody.
const AGENTS: [&[u8]; 22] = [
    b"DrydockBot/2.1",
    b"DrydockBot",
    b"Drydock",
    b"Drydock Bot",
    b"Bot 2.1",
    b"Googlebot*",
    b"bot9",
    b"bot\0",
    b"bot\t*",
    b"bot\xC3\xA9",
    b"bot:",
    b"-/",
    b"_*",
    b"*",
    b"*/2",
    b"**",
    b"*bot",
    b"* bot",
    b"2bot",
    b"/bot",
    b"\xEF\xBB\xBFbot",
    b"",
];

/// Crawlers that some of these values name, and neighbours of theirs.
const CRAWLERS: [&[u8]; 9] = [
    b"drydockbot",
    b"DRYDOCK",
    b"DrydockBots",
    b"Bot",
    b"bo",
    b"googlebot",
    b"-",
    b"_",
    b"bot/2",
];

/// The values, and names about as long as a crawler's may be, alone and with
/// something behind them.
fn agents() -> Vec<Vec<u8>> {
    let mut agents: Vec<Vec<u8>> = AGENTS.map(<[u8]>::to_vec).to_vec();
    for length in MOST_NAME - 1..=MOST_NAME + 2 {
        for behind in [b"".as_slice(), b"/2.1", b" b", b"*"] {
            agents.push([&vec![b'A'; length], behind].concat());
        }
    }
    agents
}

/// The beginning, lengthened with the block to exactly `length` octets.
fn filled(beginning: &[u8], block: &[u8], length: usize) -> Vec<u8> {
    let mut text = beginning.to_vec();
    while text.len() < length {
        text.extend(block);
    }
    text.truncate(length);
    text
}

/// The length itself, one less and one more.
fn around(length: usize) -> [usize; 3] {
    [length - 1, length, length + 1]
}

/// Paths for each refusal of a path, alone and together, and good ones.
fn paths() -> Vec<Vec<u8>> {
    let mut paths: Vec<Vec<u8>> = vec![
        b"/".to_vec(),
        b"/a".to_vec(),
        b"/robots.txt".to_vec(),
        b"".to_vec(),
        b"a".to_vec(),
        b"#".to_vec(),
        b" /".to_vec(),
        b"/#".to_vec(),
        b"/ ".to_vec(),
        vec![b'#'; MOST_PATH + 1],
    ];
    for block in [b"a".as_slice(), b"%", b"*", b"%41", b"/\xFF", b"%zz$"] {
        for length in around(MOST_PATH) {
            paths.push(filled(b"/", block, length));
        }
    }
    paths
}

fn names() -> Vec<Vec<u8>> {
    let mut names: Vec<Vec<u8>> = [b"a".as_slice(), b"A", b"b", b"", b"*", b"a b", b"a9"]
        .iter()
        .map(|name| name.to_vec())
        .collect();
    names.extend(around(MOST_NAME).map(|length| vec![b'a'; length]));
    names
}

/// Files about as long as one may be.
fn long_files() -> Vec<Vec<u8>> {
    let head = b"user-agent:*\n".as_slice();
    let dear = [b"disallow:/*".as_slice(), &[b'a'; 1_024], b"b\n"].concat();
    let stars = [b"allow:/".as_slice(), &b"*a".repeat(700), b"$\r\n"].concat();
    let mut files = Vec::new();
    for length in around(MOST_OCTETS) {
        files.push(filled(head, b"disallow:/\n", length));
        files.push(filled(&[head, b"disallow:/"].concat(), b"*", length));
    }
    for (beginning, block) in [
        (MARK, b"#".as_slice()),
        (b"", b"\r"),
        (b"", b"\n\r"),
        (b"", b"user-agent:a\nallow:x\n"),
        (b"user-agent:a\nallow:/", b"a"),
        (b"", b"user-agent:a/2.1\nuser-agent:*a\n"),
        (b"user-agent:a\ndisallow:/", b"%"),
        (b"user-agent:a\nallow:", b"*"),
        (head, b"allow:*\rdisallow:*a$\n"),
        (head, &dear),
        (head, &stars),
    ] {
        files.push(filled(beginning, block, MOST_OCTETS));
    }
    files
}

fn decide_case(file: &[u8], name: &[u8], path: &[u8]) -> DecideCase {
    DecideCase {
        file: file.to_vec(),
        name: name.to_vec(),
        path: path.to_vec(),
    }
}

/// Written-down questions for deciding.
pub fn decide_edges() -> Vec<DecideCase> {
    let mut cases = Vec::new();
    let mut add = |file: &[u8], name: &[u8], path: &[u8]| {
        cases.push(decide_case(file, name, path));
    };
    for name in names() {
        for path in paths() {
            add(FILE, &name, &path);
        }
    }
    for pattern in STAR_FIRST {
        let rules = b"user-agent: a\nallow: /a\ndisallow: ".as_slice();
        for path in paths() {
            add(&[rules, pattern].concat(), b"a", &path);
        }
    }
    for agent in agents() {
        let groups = [b"user-agent: *\nallow: /\nuser-agent: ", agent.as_slice()].concat();
        for rules in ["", "\ndisallow: /a", "\nuser-agent: b\ndisallow: /a"] {
            let file = [groups.as_slice(), rules.as_bytes()].concat();
            for name in CRAWLERS.map(<[u8]>::to_vec).into_iter().chain(names()) {
                add(&file, &name, b"/a");
            }
        }
    }
    let long = vec![b'#'; MOST_OCTETS + 1];
    for (name, path) in [("", ""), ("a", ""), ("a", "#"), ("9", "/#"), ("a", "/")] {
        add(&long, name.as_bytes(), path.as_bytes());
    }
    let path = filled(b"/", b"a", MOST_PATH);
    for file in long_files() {
        add(&file, b"a", &path);
    }
    cases.extend((0..=255).flat_map(decide_octet));
    cases
}

/// The octet in rules, agents, names and paths, and in front of a file.
fn decide_octet(octet: u8) -> Vec<DecideCase> {
    let line = |text: &str| [text.as_bytes(), &[octet], b"\n"].concat();
    let rules = ["disallow: /", "disallow: /x", "disallow: *", "allow:"];
    let mut cases = Vec::new();
    for rule in rules {
        let file = [b"user-agent: a\n", line(rule).as_slice()].concat();
        cases.push(decide_case(&file, b"a", &[b'/', octet]));
    }
    let agents = [line("user-agent: a"), b"disallow: /".to_vec()].concat();
    cases.push(decide_case(&agents, &[b'a', octet], b"/x"));
    cases.push(decide_case(&agents, b"a", b"/x"));
    cases.push(decide_case(&agents, b"a", &[octet]));
    cases.push(decide_case(&[&[octet], FILE].concat(), &[octet], b"/a"));
    cases
}

const PATTERNS: [&[u8]; 14] = [
    b"/",
    b"/a",
    b"/*",
    b"/$",
    b"/*$",
    b"/**a$",
    b"/*%",
    b"/a$$",
    b"",
    b"a",
    b"/#",
    b"/ ",
    b"/\xC3",
    b"/robots.txt",
];

/// Written-down questions for matching.
pub fn match_edges() -> Vec<MatchCase> {
    let mut cases = Vec::new();
    let mut add = |pattern: &[u8], path: &[u8]| {
        cases.push(MatchCase {
            pattern: pattern.to_vec(),
            path: path.to_vec(),
        });
    };
    for pattern in PATTERNS.into_iter().chain(STAR_FIRST) {
        for path in paths() {
            add(pattern, &path);
        }
    }
    let long_path = filled(b"/", b"%", MOST_PATH);
    for length in around(MOST_OCTETS) {
        for block in [b"*".as_slice(), b"a", b"*%", b"*5", b"%25*", b"\xC3\xA9"] {
            add(&filled(b"/", block, length), &long_path);
            add(&filled(b"*", block, length), &long_path);
        }
    }
    let too_long = vec![b' '; MOST_OCTETS + 1];
    for path in [b"".as_slice(), b"#", b"/#", b"/"] {
        add(&too_long, path);
    }
    for octet in 0..=255 {
        add(&[b'/', octet], &[b'/', octet]);
        add(&[octet], b"/");
        add(&[octet, b'a'], b"/a");
        add(&[b'*', octet], &[b'/', octet]);
        add(&[b'*', octet, b'$'], b"/a");
        add(b"/*", &[octet]);
        add(&[b'/', octet, b'$'], b"/%41");
        add(&format!("/%{octet:02x}$").into_bytes(), &[b'/', octet]);
    }
    cases
}

/// Written-down questions for normalising.
pub fn normalise_edges() -> Vec<NormaliseCase> {
    let mut all = paths();
    for octet in 0..=255u8 {
        all.push(vec![octet]);
        all.push(vec![b'/', octet]);
        all.push(vec![b'/', b'%', octet]);
        all.push(vec![b'/', b'%', b'4', octet]);
        all.push(format!("/%{octet:02X}").into_bytes());
        all.push(format!("/%{octet:02x}").into_bytes());
    }
    let mut cases = Vec::new();
    for path in all {
        let normal = normal_length(&path);
        for room in [0, 1, normal.saturating_sub(1), normal, normal + 1, 6_142] {
            cases.push(NormaliseCase {
                path: path.clone(),
                room,
            });
        }
    }
    cases
}

/// Written-down questions for the kind of a line.
pub fn line_edges() -> Vec<LineCase> {
    let fields: [&[u8]; 13] = [
        b"user-agent:",
        b"user-agent:a",
        b"User-Agent :*",
        b"allow:",
        b"disallow:",
        b"Allow :/",
        b"sitemap:",
        b":",
        b"",
        b"disallow:/\xE3",
        b"allow:*",
        b"Disallow :**",
        b"disallow:*\xE3",
    ];
    let mut lines: Vec<Vec<u8>> = Vec::new();
    for pattern in STAR_FIRST {
        lines.push([b"allow:", pattern].concat());
        lines.push([b" Disallow : ", pattern, b" #"].concat());
    }
    for agent in agents() {
        lines.push([b"user-agent:", agent.as_slice()].concat());
        lines.push([b" User-Agent : ", agent.as_slice(), b" #"].concat());
    }
    for field in fields {
        lines.push(field.to_vec());
        lines.push([MARK, field].concat());
        for octet in 0..=255 {
            lines.push([field, &[octet]].concat());
            lines.push([&[octet], field, b"a"].concat());
        }
        for length in around(MOST_OCTETS) {
            for block in [b" ".as_slice(), b"/", b"a", b"#\n", b"\r"] {
                lines.push(filled(field, block, length));
            }
        }
    }
    lines.into_iter().map(|line| LineCase { line }).collect()
}

/// Written-down inputs for the program.
pub fn program_edges() -> Vec<ProgramCase> {
    let mut inputs: Vec<Vec<u8>> = [
        b"".as_slice(),
        b"\n",
        b"\n\n",
        b"a",
        b"a\n",
        b"a\n\n",
        b"a\n/",
        b"a\n/\n",
        b"a\r\n/\n",
        b"a\r/\r",
        b"a\n/\r\n",
        b"a\nx",
        b"a\n/#\n",
        b"a b\n/\n",
        b"a\n/\nuser-agent:a\ndisallow:/",
    ]
    .iter()
    .map(|input| input.to_vec())
    .collect();
    let beginnings: [&[u8]; 5] = [
        b"a\n/\nuser-agent:a\ndisallow:/\n",
        b"a\n/a\nuser-agent:*\ndisallow:/",
        b"a\n/",
        b"",
        b"\n\n",
    ];
    for beginning in beginnings {
        for block in [b"a".as_slice(), b"#", b"*", b"\n", b"allow:/a\r\n"] {
            for length in around(MOST_INPUT) {
                inputs.push(filled(beginning, block, length));
            }
        }
        inputs.push(filled(beginning, b"#", MOST_OCTETS + 9));
    }
    for name in names() {
        for path in paths() {
            inputs.push([name.as_slice(), b"\n", &path, b"\n", FILE].concat());
        }
    }
    for octet in 0..=255 {
        inputs.push([&[b'a', octet], b"\n/a\n".as_slice(), FILE].concat());
        inputs.push([b"a\n/a".as_slice(), &[octet, b'\n'], FILE].concat());
        inputs.push([b"a\n/a\n".as_slice(), FILE, &[octet]].concat());
    }
    inputs
        .into_iter()
        .map(|input| ProgramCase { input })
        .collect()
}
