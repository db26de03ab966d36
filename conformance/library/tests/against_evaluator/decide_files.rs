//! From octets to lines to the rule that decides, worked out by hand.

use std::cmp::Reverse;

use crate::deciding::{check_decide, check_no_rule, question_shown};

/// Decided for the name a by a rule of this side, on this line and with these
/// octets; unread and compared count.
fn check_rule(file: &[u8], path: &[u8], told: (&str, usize, &[u8]), counts: [usize; 2]) {
    let answer = check_decide(file, b"a", path);
    let found = &file[answer.place..answer.place + answer.length];
    let word = ["allow", "disallow"][usize::from(answer.disallow)];
    let message = question_shown(file, b"a", path);
    assert_eq!((word, answer.line, found), told, "{message}");
    assert_eq!([answer.unread, answer.compared], counts, "{message}");
}

/// "A line ends at CR LF (one ending), CR or LF, or at the end of the file. LF
/// CR is two endings."
#[test]
fn line_endings() {
    for (ending, lines) in [
        ("\r\n", 1),
        ("\r", 1),
        ("\n", 1),
        ("\n\r", 2),
        ("\r\r\n", 2),
        ("\r\n\r", 2),
    ] {
        for last in ["", ending] {
            let file = format!("user-agent: a{ending}disallow: /{ending}allow: /b{last}");
            check_rule(
                file.as_bytes(),
                b"/a",
                ("disallow", 1 + lines, b"/"),
                [0, 3],
            );
            check_rule(
                file.as_bytes(),
                b"/b",
                ("allow", 1 + 2 * lines, b"/b"),
                [0, 3],
            );
        }
    }
    // CR LF, LF, CR, CR LF
    let file = b"\r\n\n\r\r\nuser-agent: a\ndisallow: /\r";
    check_rule(file, b"/", ("disallow", 6, b"/"), [0, 1]);
}

/// "A file that ends in a line ending has no further line; an empty file, or
/// one of those three octets alone, has none."
#[test]
fn files_without_lines() {
    for file in [
        "",
        "\u{feff}",
        "\n",
        "\r",
        "\r\n",
        "\n\r",
        "\u{feff}\n",
        "\0",
        "#",
    ] {
        check_no_rule(file.as_bytes(), b"a", b"/", 0, 0);
        check_no_rule(file.as_bytes(), b"a", b"/robots.txt", 0, 0);
    }
}

/// "If the file starts with EF BB BF, those three octets are skipped but keep
/// their places".
#[test]
fn leading_marks() {
    let rules = b"user-agent: a\ndisallow: /x".as_slice();
    let mark = b"\xEF\xBB\xBF".as_slice();
    let file = [mark, rules].concat();
    check_rule(&file, b"/x", ("disallow", 2, b"/x"), [0, 2]);
    assert_eq!(check_decide(&file, b"a", b"/x").place, 27);
    // cut short, doubled, in other octets, behind a blank: line 1 is other
    for front in [
        b"\xEF".as_slice(),
        b"\xEF\xBB",
        b"\xBB\xBF",
        b"\xBF",
        b"\xEF\xBB\xBF\xEF\xBB\xBF",
        b"\xEF\xBF\xBB",
        b"\xFE\xFF",
        b" \xEF\xBB\xBF",
    ] {
        check_no_rule(&[front, rules].concat(), b"a", b"/x", 0, 0);
    }
    // in front of a line ending it is a line without octets
    let file = [mark, b"\n", rules].concat();
    check_rule(&file, b"/x", ("disallow", 3, b"/x"), [0, 2]);
    // behind a line ending it is an octet like others
    check_no_rule(&[b"\n", mark, rules].concat(), b"a", b"/x", 0, 0);
    // with CR as the ending
    let file = [mark, b"user-agent: a\rallow:/"].concat();
    check_rule(&file, b"/x", ("allow", 2, b"/"), [0, 1]);
}

/// NUL is an octet like others: it ends no file, line, value or pattern. Behind
/// a name it is ignored, as others are.
#[test]
fn nul_octets() {
    check_rule(
        b"\0\nuser-agent: a\n\0\ndisallow: /",
        b"/",
        ("disallow", 4, b"/"),
        [0, 1],
    );
    check_rule(
        b"user-agent: a#\0\ndisallow: /#\0",
        b"/",
        ("disallow", 2, b"/"),
        [0, 1],
    );
    check_rule(
        b"user-agent: a\0b\ndisallow: /",
        b"/",
        ("disallow", 2, b"/"),
        [0, 1],
    );
    check_no_rule(b"user-agent: \0a\ndisallow: /", b"a", b"/", 1, 0);
    check_no_rule(b"user-agent: *\0\ndisallow: /", b"a", b"/", 1, 0);
    check_no_rule(b"user-agent: a\ndisallow: /\0", b"a", b"/", 1, 0);
    check_no_rule(b"user-agent: a\ndisallow\0: /", b"a", b"/", 0, 0);
    check_no_rule(b"user-agent: a\n\0disallow: /", b"a", b"/", 0, 0);
    check_no_rule(&[0; 1_000], b"a", b"/", 0, 0);
}

/// The octets are the raw pattern, without what stands around it.
#[test]
fn deciding_octets() {
    for (rule, octets) in [
        ("disallow:/A", "/A"),
        ("disallow: /A ", "/A"),
        (" \tDisAllow\t : \t/A\t #/A", "/A"),
        ("disallow:/%41", "/%41"),
        ("disallow:/A$#", "/A$"),
        ("disallow:/*", "/*"),
        ("disallow:/%41*$ ", "/%41*$"),
        ("disallow:*", "*"),
        ("disallow:*#", "*"),
        ("disallow:\t*$\t", "*$"),
        ("disallow: **%41$", "**%41$"),
    ] {
        for front in [
            "user-agent:a\n",
            "\u{feff}user-agent:a\r\n",
            "\n\r#\nuser-agent:a\n",
        ] {
            let file = format!("{front}{rule}");
            let answer = check_decide(file.as_bytes(), b"a", b"/A");
            let found = &file.as_bytes()[answer.place..answer.place + answer.length];
            assert_eq!(found, octets.as_bytes(), "{file}");
            assert!(answer.disallow, "{file}");
        }
    }
}

/// "/robots.txt, which is always allowed with no rule deciding", however it is
/// spelt; the unread count is the whole file's.
#[test]
fn the_rules_files_own_path() {
    let file = b"user-agent: *\ndisallow: /\nallow: x\nuser-agent: 9";
    let path = b"/robots.txt";
    check_no_rule(file, b"a", path, 2, 0);
    for at in 1..path.len() {
        for escape in [format!("%{:02x}", path[at]), format!("%{:02X}", path[at])] {
            let spelt = [&path[..at], escape.as_bytes(), &path[at + 1..]].concat();
            check_no_rule(file, b"a", &spelt, 2, 0);
        }
    }
    let all: String = path[1..]
        .iter()
        .map(|octet| format!("%{octet:02x}"))
        .collect();
    check_no_rule(file, b"a", format!("/{all}").as_bytes(), 2, 0);
    for other in [
        "/robots.txt?x",
        "/robots.txt?",
        "/robots.txt/",
        "/robots.txt%",
        "/robots.tx",
        "/robots.txtt",
        "/Robots.txt",
        "/robots%2Etxt%00",
        "/%2Frobots.txt",
        "//robots.txt",
        "/a/robots.txt",
        "/robots.txt*",
        "/robots.txt$",
        "/%52obots.txt",
    ] {
        check_rule(file, other.as_bytes(), ("disallow", 2, b"/"), [2, 1]);
    }
}

/// "Decoding %2F or %2A before comparing" and "Treating every "$" as an end
/// mark" only look right.
#[test]
fn escapes_in_patterns_and_paths() {
    for (pattern, path, disallow, compared) in [
        ("/a/b", "/a%2Fb", false, 3),
        // longer than the path
        ("/a%2Fb", "/a/b", false, 0),
        ("/a%2fb", "/a%2Fb", true, 6),
        ("/a%2A", "/ab", false, 0),
        ("/a%2a", "/a*", true, 5),
        ("/a*", "/a%2A", true, 2),
        ("/a%24", "/a$", true, 5),
        // the path is "/a%24", so the run "/a" doesn't start at 0
        ("/a$", "/a%24", false, 0),
        ("/a$b", "/a%24b", true, 6),
        ("/a%", "/a%25", true, 5),
        ("/%61%2e", "/a.", true, 3),
        // "%2A" at 0 costs 1, at 1 costs 3; "%24b" 1 and 4
        ("*%2a", "/*", true, 4),
        ("*$b", "/$b", true, 5),
        ("*$", "/$", true, 0),
    ] {
        let file = format!("user-agent: a\ndisallow: {pattern}");
        let told = ("disallow", 2, pattern.as_bytes());
        match disallow {
            true => check_rule(file.as_bytes(), path.as_bytes(), told, [0, compared]),
            false => check_no_rule(file.as_bytes(), b"a", path.as_bytes(), 0, compared),
        }
    }
}

/// "a readable pattern begins with "/" or "*"" (M-102); the first row is its
/// own. An unreadable one never matches, and is counted.
#[test]
fn patterns_that_begin_with_a_star() {
    let rules = b"user-agent: *\ndisallow: *.gif$";
    check_rule(rules, b"/x.gif", ("disallow", 2, b"*.gif$"), [0, 4]);
    // ".gif" at 2 only, where "g" stands; under 0
    check_no_rule(rules, b"a", b"/.gif/", 0, 1);
    check_no_rule(rules, b"a", b"/gi", 0, 0);
    let rules = b"user-agent: a\ndisallow: *";
    for path in ["/", "/a", "/robots.txt?", "/*"] {
        check_rule(rules, path.as_bytes(), ("disallow", 2, b"*"), [0, 0]);
    }
    check_no_rule(rules, b"a", b"/robots.txt", 0, 0);
    // "*" weighs 1 as "/" does, and "**" 2
    let rules = b"user-agent: a\ndisallow: *\nallow: /\n";
    check_rule(rules, b"/", ("allow", 3, b"/"), [0, 1]);
    let rules = b"user-agent: a\ndisallow: /\nallow: *\n";
    check_rule(rules, b"/", ("allow", 3, b"*"), [0, 1]);
    let rules = b"user-agent: a\ndisallow: **\nallow: /\n";
    check_rule(rules, b"/", ("disallow", 2, b"**"), [0, 1]);
    for unreadable in ["$", "$*", "$/", "%2A", ".gif$", "*\u{1}", "*a b"] {
        let rules = format!("user-agent: a\ndisallow: {unreadable}\nallow: *\n");
        check_rule(rules.as_bytes(), b"/", ("allow", 3, b"*"), [1, 0]);
    }
    check_no_rule(b"user-agent: a\ndisallow: *\xC3\n", b"a", b"/", 1, 0);
}

/// Patterns that match the path "/ab", with their weights.
const PATTERNS: [(&str, usize); 12] = [
    ("*", 1),
    ("*b", 2),
    ("*b$", 3),
    ("/", 1),
    ("/a", 2),
    ("/*", 2),
    ("/ab", 3),
    ("/%61b", 3),
    ("/a*", 3),
    ("/ab$", 4),
    ("/*b$", 4),
    ("/**%62", 4),
];

/// Every file of three rules with these patterns on either side.
#[test]
fn the_heaviest_match_then_allow_then_the_earliest_line() {
    let rules: Vec<(&str, &str, usize)> = ["allow", "disallow"]
        .into_iter()
        .flat_map(|side| PATTERNS.map(|(pattern, weight)| (side, pattern, weight)))
        .collect();
    let (count, mut ties) = (rules.len(), 0);
    for index in 0..count.pow(3) {
        let row = [index / count.pow(2), index / count % count, index % count].map(|at| rules[at]);
        let lines = row.map(|(side, pattern, _)| format!("{side}: {pattern}"));
        let file = format!("user-agent: a\n{}", lines.join("\n"));
        let key = |at: &usize| (row[*at].2, row[*at].0 == "allow", Reverse(*at));
        let decides = (0..3).max_by_key(key).unwrap_or(0);
        let (side, pattern, weight) = row[decides];
        let answer = check_decide(file.as_bytes(), b"a", b"/ab");
        let octets = &file[answer.place..answer.place + answer.length];
        assert_eq!((answer.line, octets), (decides + 2, pattern), "{file}");
        assert_eq!(answer.disallow, side == "disallow", "{file}");
        ties += usize::from(row.iter().filter(|rule| rule.2 == weight).count() > 1);
    }
    println!("{ties} ties among {}", count.pow(3));
    assert!(ties > 1_000, "{ties} ties");
}
