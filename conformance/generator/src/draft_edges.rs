//! Written-down questions for the dialect of 1996: every two of these patterns,
//! on either side, asked about every one of these paths.

use crate::DecideCase;

const PATTERNS: [&[u8]; 36] = [
    b"/",
    b"/a",
    b"/a/",
    b"/*",
    b"/$",
    b"/a$",
    b"/a*",
    b"/*$",
    b"/a*b",
    b"/a$b",
    b"*",
    b"*a",
    b"*/",
    b"**",
    b"*$",
    b"/%2A",
    b"/%2a",
    b"/%24",
    b"/a%24",
    b"/%",
    b"/%2",
    b"/%2$",
    b"/%2*",
    b"/%7e",
    b"/%7E",
    b"/~",
    b"/%61",
    b"/%C3%a9",
    b"/\xC3\xA9",
    b"",
    b"a",
    b"$",
    b"/\xC3",
    b"/robots.txt",
    b"/robots.txt$",
    b"*robots.txt",
];

const PATHS: [&[u8]; 27] = [
    b"/",
    b"/a",
    b"/abcdefgh",
    b"/*",
    b"/$",
    b"/a$",
    b"/a*",
    b"/*$",
    b"/a*b",
    b"/a$b",
    b"/%2A",
    b"/%2a/",
    b"/%24b",
    b"/%2$",
    b"/%2*",
    b"/%7Ea",
    b"/~",
    b"/%C3%A9",
    b"/\xC3\xA9",
    b"/\xC3",
    b"/robots.txt",
    b"/%72obots.txt",
    b"/robots.txt$",
    b"/robots.txt?x",
    b"",
    b"a",
    b"/#",
];

/// The sides of two rules, and whether the second stands in a later group.
const SHAPES: [(&str, &str); 4] = [
    ("allow: ", "\ndisallow: "),
    ("disallow: ", "\nallow: "),
    (
        "allow: ",
        "\nuser-agent: *\nallow: /\nuser-agent: A/2\ndisallow: ",
    ),
    (
        "disallow: ",
        "\nuser-agent: *\nallow: /\nuser-agent: A/2\nallow: ",
    ),
];

/// Written-down questions for deciding in the dialect of 1996.
pub fn draft_decide_edges() -> Vec<DecideCase> {
    let mut cases = Vec::new();
    let mut add = |file: &[u8], path: &[u8]| {
        cases.push(DecideCase {
            file: file.to_vec(),
            name: b"a".to_vec(),
            path: path.to_vec(),
        });
    };
    for one in PATTERNS {
        for other in PATTERNS {
            for (front, middle) in SHAPES {
                let head = [b"user-agent: a\n", front.as_bytes()].concat();
                let file = [&head, one, middle.as_bytes(), other].concat();
                PATHS.iter().for_each(|path| add(&file, path));
            }
        }
    }
    for octet in 0..=255u8 {
        let escape = format!("/%{octet:02x}").into_bytes();
        for pattern in [vec![b'/', octet], vec![b'*', octet], escape.clone()] {
            let file = [b"user-agent: *\ndisallow: ", pattern.as_slice()].concat();
            for path in [vec![b'/', octet], vec![b'/', octet, b'a'], escape.clone()] {
                add(&file, &path);
            }
        }
    }
    cases
}
