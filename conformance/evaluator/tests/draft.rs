//! The dialect of 1996 (document 02, M-113), with answers worked out by hand,
//! each beside the RFC's. "|" ends a line.

use evaluator::{compared_bound, decide, decide_in, Decision, DRAFT1996, RFC9309};

const MOST_OCTETS: usize = 512_000;

const ALLOW: bool = false;
const DISALLOW: bool = true;

/// Disallow, line, unread, compared.
type Told = (bool, usize, usize, usize);

/// What stands below "user-agent: *"; path; the RFC's answer, and the draft's.
type Row = (&'static str, &'static str, Told, Told);

const ROWS: [Row; 32] = [
    // "the first match in file order decides": a broad allow ahead of a narrow
    // disallow, the other way about, and two of equal weight
    (
        "allow: /|disallow: /a",
        "/a/b",
        (DISALLOW, 3, 0, 3),
        (ALLOW, 2, 0, 1),
    ),
    (
        "disallow: /|allow: /a",
        "/a/b",
        (ALLOW, 3, 0, 3),
        (DISALLOW, 2, 0, 1),
    ),
    (
        "disallow: /a|allow: /a",
        "/a",
        (ALLOW, 3, 0, 4),
        (DISALLOW, 2, 0, 2),
    ),
    (
        "allow: /a|disallow: /a",
        "/a",
        (ALLOW, 2, 0, 4),
        (ALLOW, 2, 0, 2),
    ),
    // "rules after the deciding one add nothing to the compared count"
    (
        "allow: /b|allow: /a|disallow: /ab",
        "/ab",
        (DISALLOW, 4, 0, 7),
        (ALLOW, 3, 0, 4),
    ),
    // "no match allows": every rule is walked
    (
        "disallow: /b|disallow: /abc|allow: /c",
        "/a",
        (ALLOW, 0, 0, 4),
        (ALLOW, 0, 0, 4),
    ),
    // "star and dollar in a pattern are plain octets, normalised as in a path":
    // /* is /%2A, and longer than /x
    ("disallow: /*", "/x", (DISALLOW, 2, 0, 1), (ALLOW, 0, 0, 0)),
    (
        "disallow: /*",
        "/xyz",
        (DISALLOW, 2, 0, 1),
        (ALLOW, 0, 0, 2),
    ),
    (
        "disallow: /*",
        "/*",
        (DISALLOW, 2, 0, 1),
        (DISALLOW, 2, 0, 4),
    ),
    (
        "disallow: /*",
        "/%2a/b",
        (DISALLOW, 2, 0, 1),
        (DISALLOW, 2, 0, 4),
    ),
    (
        "disallow: /%2a",
        "/*b",
        (DISALLOW, 2, 0, 4),
        (DISALLOW, 2, 0, 4),
    ),
    (
        "disallow: /a*c",
        "/abc",
        (DISALLOW, 2, 0, 4),
        (ALLOW, 0, 0, 0),
    ),
    (
        "disallow: /a*c",
        "/abcdef",
        (DISALLOW, 2, 0, 4),
        (ALLOW, 0, 0, 3),
    ),
    ("disallow: /a$", "/a", (DISALLOW, 2, 0, 2), (ALLOW, 0, 0, 0)),
    (
        "disallow: /a$",
        "/a$",
        (ALLOW, 0, 0, 0),
        (DISALLOW, 2, 0, 5),
    ),
    (
        "disallow: /a$",
        "/a%24b",
        (ALLOW, 0, 0, 0),
        (DISALLOW, 2, 0, 5),
    ),
    (
        "disallow: /a$b",
        "/a$bc",
        (DISALLOW, 2, 0, 6),
        (DISALLOW, 2, 0, 6),
    ),
    (
        "disallow: /a%24",
        "/a$",
        (DISALLOW, 2, 0, 5),
        (DISALLOW, 2, 0, 5),
    ),
    (
        "disallow: /*$",
        "/*$",
        (DISALLOW, 2, 0, 1),
        (DISALLOW, 2, 0, 7),
    ),
    // a final "$" isn't taken off before normalising
    (
        "disallow: /%2$",
        "/%2$",
        (ALLOW, 0, 0, 0),
        (DISALLOW, 2, 0, 8),
    ),
    (
        "disallow: /%2$",
        "/%2",
        (DISALLOW, 2, 0, 5),
        (ALLOW, 0, 0, 0),
    ),
    // "a readable pattern begins with "/" or "*"" (M-102): *x is %2Ax, which is
    // longer than /x, and differs from /xyz at its first octet
    ("disallow: *x", "/x", (DISALLOW, 2, 0, 2), (ALLOW, 0, 0, 0)),
    (
        "disallow: *x|allow: /x",
        "/xyz",
        (ALLOW, 3, 0, 4),
        (ALLOW, 3, 0, 3),
    ),
    ("disallow: *", "/xy", (DISALLOW, 2, 0, 0), (ALLOW, 0, 0, 1)),
    // "01's [..] normalising"
    (
        "disallow: /%7Ejoe",
        "/~joe/x",
        (DISALLOW, 2, 0, 5),
        (DISALLOW, 2, 0, 5),
    ),
    (
        "disallow: /a%2fb",
        "/a/b/c/d",
        (ALLOW, 0, 0, 3),
        (ALLOW, 0, 0, 3),
    ),
    (
        "disallow: /\u{e9}",
        "/%c3%A9",
        (DISALLOW, 2, 0, 7),
        (DISALLOW, 2, 0, 7),
    ),
    // "empty patterns never match", unreadable ones don't either, and the unread
    // count is of the whole file
    (
        "disallow:|allow: x|allow: /",
        "/",
        (ALLOW, 4, 1, 1),
        (ALLOW, 4, 1, 1),
    ),
    (
        "allow: /|disallow: x|user-agent: 9",
        "/a",
        (ALLOW, 2, 2, 1),
        (ALLOW, 2, 2, 1),
    ),
    // "/robots.txt stays allowed as in 01"
    (
        "disallow: /|allow: x",
        "/%72obots.txt",
        (ALLOW, 0, 1, 0),
        (ALLOW, 0, 1, 0),
    ),
    (
        "disallow: /|allow: x",
        "/robots.txt?x",
        (DISALLOW, 2, 1, 1),
        (DISALLOW, 2, 1, 1),
    ),
    (
        "disallow: /robots.txt$",
        "/robots.txt$",
        (ALLOW, 0, 0, 0),
        (DISALLOW, 2, 0, 14),
    ),
];

fn lines(text: &str) -> Vec<u8> {
    text.replace('|', "\n").into_bytes()
}

fn told(answer: &Decision) -> Told {
    let Decision {
        disallow,
        line,
        unread,
        compared,
        ..
    } = *answer;
    (disallow, line, unread, compared)
}

#[test]
fn every_row_in_both_dialects() {
    for (rules, path, of_rfc, of_draft) in ROWS {
        let file = lines(&format!("user-agent: *|{rules}"));
        for (dialect, expected) in [(RFC9309, of_rfc), (DRAFT1996, of_draft)] {
            let answer = decide_in(dialect, &file, b"a", path.as_bytes());
            assert_eq!(answer.refusal, 0, "{dialect}: {rules} {path}");
            assert_eq!(told(&answer), expected, "{dialect}: {rules} {path}");
        }
    }
}

#[test]
fn the_numbers_of_the_dialects() {
    assert_eq!([RFC9309, DRAFT1996], [0, 1]);
    for (rules, path, ..) in ROWS {
        let file = lines(&format!("user-agent: *|{rules}"));
        let answer = decide(&file, b"a", path.as_bytes());
        assert_eq!(decide_in(0, &file, b"a", path.as_bytes()), answer);
    }
}

/// "If any group names the crawler, the rules of all such groups": file order
/// goes over all of them.
#[test]
fn the_deciding_rule_in_a_later_group() {
    let file = lines(
        "user-agent: a|disallow: /b|user-agent: *|allow: /|user-agent: A/2|allow: /a|disallow: /",
    );
    for (name, path, expected) in [
        ("a", "/ab", (ALLOW, 6, 0, 4)),
        ("a", "/b", (DISALLOW, 2, 0, 2)),
        ("a", "/c", (DISALLOW, 7, 0, 5)),
        ("A", "/", (DISALLOW, 7, 0, 1)),
        ("c", "/b", (ALLOW, 4, 0, 1)),
    ] {
        let answer = decide_in(DRAFT1996, &file, name.as_bytes(), path.as_bytes());
        assert_eq!(told(&answer), expected, "{name} {path}");
    }
    let answer = decide_in(DRAFT1996, &file, b"a", b"/ab");
    // lines of 14, 13, 14, 9 and 16 octets, and 7 before the pattern
    assert_eq!((answer.place, answer.length), (73, 2));
    assert_eq!(&file[73..75], b"/a");
}

/// "demand 3 hold[s] in both, the sum here ending with the deciding rule"
#[test]
fn the_bound_ends_with_the_deciding_rule() {
    let file = lines("user-agent: *|allow: /ok.html|disallow: /o*|disallow: /o|disallow: /");
    // 8 and 5 octets are walked in vain, /o decides
    assert_eq!(
        compared_bound(DRAFT1996, &file, b"a", b"/of"),
        (8 + 5 + 2) * 3
    );
    // all four in vain, at a path of two octets: 3 longer ones and 1
    assert_eq!(
        compared_bound(DRAFT1996, &file, b"a", b"/x"),
        (8 + 5 + 2 + 1) * 2
    );
    // stars weigh 1 in the RFC's, and every rule is walked
    assert_eq!(
        compared_bound(RFC9309, &file, b"a", b"/of"),
        (8 + 3 + 2 + 1) * 3
    );
    assert_eq!(compared_bound(DRAFT1996, &file, b"a", b"/robots.txt"), 0);
    assert_eq!(compared_bound(2, &file, b"a", b"/of"), 0);
}

const UNKNOWN: [u64; 12] = [
    2,
    3,
    20,
    255,
    256,
    257,
    1 << 16,
    1 << 32,
    (1 << 32) + 1,
    1 << 63,
    u64::MAX - 1,
    u64::MAX,
];

/// "Refusals: 20 for an unknown dialect, first of all."
#[test]
fn an_unknown_dialect_is_refused_first() {
    let refused = Decision {
        refusal: 20,
        disallow: true,
        line: 0,
        place: 0,
        length: 0,
        unread: 0,
        compared: 0,
    };
    let long = vec![b'#'; MOST_OCTETS + 1];
    let file = lines("user-agent: 9|user-agent: *|allow: /");
    let files = [b"".as_slice(), &file, &long];
    for dialect in UNKNOWN {
        let dialect = usize::try_from(dialect).expect("a usize of 64 bits");
        for file in files {
            for name in [b"a".as_slice(), b"", b"9"] {
                for path in [b"/".as_slice(), b"", b"a", b"/#", b"/robots.txt"] {
                    let answer = decide_in(dialect, file, name, path);
                    assert_eq!(answer, refused, "{dialect} {name:?} {path:?}");
                }
            }
        }
    }
}

/// Document 01's refusals in this dialect.
#[test]
fn other_refusals_stay() {
    let long = vec![b'#'; MOST_OCTETS + 1];
    for (file, name, path, refusal) in [
        (long.as_slice(), b"".as_slice(), b"".as_slice(), 1),
        (b"", b"", b"", 2),
        (b"", b"a", b"", 3),
        (b"", b"a", b"a#", 4),
        (b"", b"a", b"/#", 5),
    ] {
        let answer = decide_in(DRAFT1996, file, name, path);
        assert_eq!(answer, decide(file, name, path));
        assert_eq!((answer.refusal, answer.disallow), (refusal, true));
    }
}

#[test]
fn files_as_long_as_they_may_be() {
    let filled = |beginning: &[u8], block: &[u8]| -> Vec<u8> {
        let blocks = block.iter().cycle().take(MOST_OCTETS - beginning.len());
        beginning.iter().chain(blocks).copied().collect()
    };
    // the first of 46,544 rules decides
    let file = filled(b"user-agent:*\n", b"disallow:/\n");
    let answer = decide_in(DRAFT1996, &file, b"a", b"/x");
    assert_eq!(told(&answer), (DISALLOW, 2, 0, 1));
    // 511,987 octets of rules, and of the last the first 7, "disallo"
    let file = filled(b"user-agent:*\n", b"disallow:/a\n");
    let answer = decide_in(DRAFT1996, &file, b"a", b"/b");
    assert_eq!(told(&answer), (ALLOW, 0, 0, 42_665 * 2));
    // one pattern, far longer than the path
    let file = filled(b"user-agent:*\ndisallow:/", b"*");
    let answer = decide_in(DRAFT1996, &file, b"a", b"/*");
    assert_eq!(told(&answer), (ALLOW, 0, 0, 0));
}
