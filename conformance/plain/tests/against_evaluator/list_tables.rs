//! Lists by files of many rules that apply, and by groups of which it is known
//! at the end only whether they do.

use evaluator::{DRAFT1996, RFC9309};

use crate::lists::check_list;
use crate::texts::{lengthened, MOST_FILE};

/// Rules that apply: about each power of two up to 1,024, and many more.
const COUNTS: [usize; 17] = [
    0, 1, 2, 63, 64, 65, 127, 128, 129, 511, 512, 513, 1_023, 1_024, 1_025, 3_000, 5_000,
];

/// Places in a file where a rule may decide.
fn edges(count: usize) -> Vec<usize> {
    let places = [0, 1, 63, 64, 255, 511, 512, 513, 1_023, 1_024, 1_535, 4_095];
    let last = [count / 2, count.saturating_sub(2), count.saturating_sub(1)];
    let mut edges: Vec<usize> = places.into_iter().chain(last).collect();
    edges.retain(|at| *at < count);
    edges
}

fn rule(at: usize, pattern: &str) -> String {
    let side = ["disallow", "allow"][at % 3 % 2];
    format!("{side}: {pattern}\n")
}

/// Each of the rules decides alone.
#[test]
fn one_rule_of_many_decides() {
    for count in COUNTS {
        let rules: String = (0..count)
            .map(|at| rule(at, &format!("/r{at:05}")))
            .collect();
        let file = format!("user-agent: *\n{rules}");
        let paths: Vec<String> = edges(count)
            .into_iter()
            .map(|at| format!("/r{at:05}/x"))
            .chain(["/".to_string(), "/robots.txt".to_string()])
            .collect();
        let paths: Vec<&[u8]> = paths.iter().map(|path| path.as_bytes()).collect();
        for dialect in [RFC9309, DRAFT1996] {
            let decisions = check_list(dialect, file.as_bytes(), b"a", &paths);
            let decided = decisions.iter().filter(|decision| decision.line > 0);
            assert_eq!(decided.count(), edges(count).len(), "{count}");
        }
    }
}

/// Two rules that match, far apart: each side and each of three weights first.
#[test]
fn two_rules_of_many_match() {
    let others = |count: usize| "disallow: /y\n".repeat(count);
    let two = ["allow: /x", "disallow: /x", "allow: /*x", "disallow: /x/"];
    for between in [0, 1, 62, 63, 510, 511, 512, 1_023, 2_000] {
        for (before, one, other) in pairs(two) {
            let (before, between) = (others(before), others(between));
            let file = format!("user-agent: *\n{before}{one}\n{between}{other}\n");
            for dialect in [RFC9309, DRAFT1996] {
                check_list(dialect, file.as_bytes(), b"a", &[b"/x/y", b"/x", b"/y"]);
            }
        }
    }
}

fn pairs(rules: [&str; 4]) -> impl Iterator<Item = (usize, &str, &str)> {
    let of = move |before: usize| {
        (0..16).map(move |pair: usize| (before, rules[pair / 4], rules[pair % 4]))
    };
    [0, 1, 63, 511, 512].into_iter().flat_map(of)
}

/// Rules of every sort again and again, as many as fit.
#[test]
fn as_many_rules_as_fit() {
    let head = b"user-agent:*\nuser-agent:a\n";
    let rules = b"allow:/*b$\ndisallow:/a\nallow:x\ndisallow:\ndisallow:/%41*\nallow:/a$\xC3\xA9\n";
    let file = lengthened(head, rules, b"\nallow:/a/b/c", MOST_FILE);
    let paths: [&[u8]; 6] = [b"/a", b"/a/b/c", b"/A/b", b"/b", b"/c", b"/a$\xC3\xA9"];
    for dialect in [RFC9309, DRAFT1996] {
        for name in [b"a", b"b"] {
            let decisions = check_list(dialect, &file, name, &paths);
            assert!(decisions[0].line > 0 && decisions[4].line == 0);
        }
    }
}

/// Groups of the crawler, of everyone, of both and of another, each with or
/// without rules, in every order of four.
#[test]
fn groups_in_every_order() {
    let groups = [
        "user-agent: a\ndisallow: /x\n".to_string(),
        "user-agent: a\ndisallow:\n".to_string(),
        "user-agent: *\nallow: /x/y\ndisallow: /\n".to_string(),
        "user-agent: *\nuser-agent: A/2\nallow: /x\n".to_string(),
        "user-agent: b\ndisallow: /x/y/z\n".to_string(),
        format!("user-agent: *\n{}", "disallow: /x/y\n".repeat(100)),
        String::new(),
    ];
    let count = groups.len();
    for number in 0..count.pow(4) {
        let digits = (0..4).map(|digit| number / count.pow(digit) % count);
        let file: String = digits.map(|group| groups[group].as_str()).collect();
        for dialect in [RFC9309, DRAFT1996] {
            check_list(dialect, file.as_bytes(), b"a", &[b"/x/y/z", b"/w"]);
        }
    }
}
