//! Sentences of the papers, each with cases worked out by hand.

use evaluator::{decide, line_kind, match_pattern, normalise, LineKind};

const MARK: &[u8] = b"\xEF\xBB\xBF";

/// "|" ends a line.
fn lines(text: &str) -> Vec<u8> {
    text.replace('|', "\n").into_bytes()
}

/// Disallow, line, unread, compared.
fn answer(file: &[u8], name: &str, path: &str) -> (bool, usize, usize, usize) {
    let decision = decide(file, name.as_bytes(), path.as_bytes());
    assert_eq!(decision.refusal, 0, "{name} {path}");
    (
        decision.disallow,
        decision.line,
        decision.unread,
        decision.compared,
    )
}

fn normal(path: &[u8]) -> Vec<u8> {
    let mut buffer = [0; 6_142];
    let answer = normalise(path, &mut buffer);
    assert_eq!(answer.refusal, 0);
    buffer[..answer.written].to_vec()
}

fn kind(line: &[u8]) -> (usize, usize, usize) {
    let LineKind {
        refusal,
        kind,
        place,
        length,
    } = line_kind(line);
    assert_eq!(refusal, 0);
    (kind, place, length)
}

/// A line; kind, place and length.
type KindCase = (&'static [u8], (usize, usize, usize));

#[test]
fn kinds_of_lines() {
    let cases: [KindCase; 37] = [
        (b"", (1, 0, 0)),
        (b" \t ", (1, 0, 0)),
        (b"# user-agent: a", (1, 0, 0)),
        (b" \t#:", (1, 0, 0)),
        (b"user-agent", (2, 0, 0)),
        (b"user-agent # : a", (2, 0, 0)),
        (b"\x0B", (2, 0, 0)),
        (b":", (3, 0, 0)),
        (b" : /x", (3, 0, 0)),
        (b"sitemap: /x", (3, 0, 0)),
        (b"useragent: a", (3, 0, 0)),
        (b"user agent: a", (3, 0, 0)),
        (b"allowed: /", (3, 0, 0)),
        (b"allo: /", (3, 0, 0)),
        (b"\x0Ballow: /", (3, 0, 0)),
        (b"\xEF\xBB\xBFuser-agent: a", (3, 0, 0)),
        (b"user-agent: a", (4, 12, 1)),
        (b"USER-Agent:*", (4, 11, 1)),
        (b"\tuser-agent \t: \ta_B-c \t#x", (4, 16, 5)),
        (b"user-agent:", (5, 0, 0)),
        (b"user-agent:  # a", (5, 0, 0)),
        (b"allow:", (6, 0, 0)),
        (b"allow: \t#/", (6, 0, 0)),
        (b"allow:/", (7, 6, 1)),
        (b"ALLOW : /a:b*$ # c", (7, 8, 6)),
        (b"allow: /\x7F", (7, 7, 2)),
        (b"allow: /\xC3\xA9", (7, 7, 3)),
        (b"allow: /a b", (8, 7, 4)),
        (b"allow: /\xC3", (8, 7, 2)),
        (b"disallow: ", (9, 0, 0)),
        (b"disallow:/a#b", (10, 9, 2)),
        (b"Disallow:/\xF4\x8F\xBF\xBF", (10, 9, 5)),
        (b"disallow: x", (11, 10, 1)),
        (b"disallow:/\xF4\x90\x80\x80", (11, 9, 5)),
        (b"disallow:/\xED\xA0\x80", (11, 9, 4)),
        (b"disallow:/\xC0\xAF", (11, 9, 3)),
        (b"disallow:/\x00", (11, 9, 2)),
    ];
    for (line, expected) in cases {
        assert_eq!(kind(line), expected, "{}", String::from_utf8_lossy(line));
    }
}

/// "unread exactly if that beginning is empty and the value isn't exactly "*"",
/// and "places and lengths stay the whole value's" (document 02, M-105).
#[test]
fn kinds_of_agent_lines() {
    let cases: [KindCase; 34] = [
        (b"user-agent: DrydockBot/2.1", (4, 12, 14)),
        (b"user-agent: Bot 2.1", (4, 12, 7)),
        (b"user-agent: Googlebot*", (4, 12, 10)),
        (b"user-agent: a b", (4, 12, 3)),
        (b"user-agent: a\tb", (4, 12, 3)),
        (b"user-agent: a/1.0", (4, 12, 5)),
        (b"user-agent: a:b", (4, 12, 3)),
        (b"user-agent: bot9", (4, 12, 4)),
        (b"user-agent: bot**", (4, 12, 5)),
        (b"user-agent: -/", (4, 12, 2)),
        (b"user-agent:_.", (4, 11, 2)),
        (b"user-agent: Z\x00", (4, 12, 2)),
        (b"user-agent: a\x7F", (4, 12, 2)),
        (b"user-agent: a\xC3\xA9", (4, 12, 3)),
        (b"user-agent: a\xFF\x80", (4, 12, 3)),
        (b"user-agent:\ta/2.1 (x) \t# y", (4, 12, 9)),
        (b"user-agent: a/#2.1", (4, 12, 2)),
        (b"user-agent: * # x", (4, 12, 1)),
        (b"user-agent: **", (5, 12, 2)),
        (b"user-agent: */2", (5, 12, 3)),
        (b"user-agent: *bot", (5, 12, 4)),
        (b"user-agent: * a", (5, 12, 3)),
        (b"user-agent: *\x00", (5, 12, 2)),
        (b"user-agent: 2bot", (5, 12, 4)),
        (b"user-agent: /bot", (5, 12, 4)),
        (b"user-agent: .", (5, 12, 1)),
        (b"user-agent: :bot", (5, 12, 4)),
        (b"user-agent: @bot", (5, 12, 4)),
        (b"user-agent: [bot", (5, 12, 4)),
        (b"user-agent: `bot", (5, 12, 4)),
        (b"user-agent: {bot", (5, 12, 4)),
        (b"user-agent: \x00bot", (5, 12, 4)),
        (b"user-agent: \xC3\xA9bot", (5, 12, 5)),
        (b"user-agent: \xEF\xBB\xBFbot", (5, 12, 6)),
    ];
    for (line, expected) in cases {
        assert_eq!(kind(line), expected, "{}", String::from_utf8_lossy(line));
    }
}

/// "a readable pattern begins with "/" or "*"" (document 02, M-102).
#[test]
fn kinds_of_rules_that_begin_with_a_star() {
    let cases: [KindCase; 13] = [
        (b"allow: *.gif$", (7, 7, 6)),
        (b"allow:*", (7, 6, 1)),
        (b"allow: * # x", (7, 7, 1)),
        (b"allow: **\xC3\xA9", (7, 7, 4)),
        (b"allow: $", (8, 7, 1)),
        (b"allow: $*", (8, 7, 2)),
        (b"allow: %2A", (8, 7, 3)),
        (b"allow: *\xC3", (8, 7, 2)),
        (b"disallow: *$\t", (10, 10, 2)),
        (b"disallow: $/", (11, 10, 2)),
        (b"disallow: .*", (11, 10, 2)),
        (b"disallow: *a b", (11, 10, 4)),
        (b"disallow:*\x00", (11, 9, 2)),
    ];
    for (line, expected) in cases {
        assert_eq!(kind(line), expected, "{}", String::from_utf8_lossy(line));
    }
}

#[test]
fn a_number_sign_in_a_pattern_is_unreadable() {
    assert_eq!(match_pattern(b"/a#b", b"/a").refusal, 8);
    assert_eq!(match_pattern(b"/#", b"/a").refusal, 8);
    // In a line it begins a comment.
    let file = lines("user-agent: a|disallow: /a#b");
    assert_eq!(answer(&file, "a", "/a"), (true, 2, 0, 2));
}

#[test]
fn an_empty_agent_is_unread_and_an_empty_pattern_isnt() {
    let file = lines("user-agent:|disallow: /");
    assert_eq!(answer(&file, "a", "/"), (false, 0, 1, 0));
    let file = lines("user-agent: a|disallow:|user-agent: b|disallow: /");
    assert_eq!(answer(&file, "a", "/"), (false, 0, 0, 0));
    assert_eq!(answer(&file, "b", "/"), (true, 4, 0, 1));
}

#[test]
fn an_unreadable_agent_starts_or_joins_a_group() {
    // It starts one, which "*" doesn't name.
    let file = lines("user-agent: *|disallow: /x|user-agent: ?|disallow: /");
    assert_eq!(answer(&file, "a", "/y"), (false, 0, 1, 2));
    // It joins one.
    let file = lines("user-agent: a|user-agent: ?|disallow: /");
    assert_eq!(answer(&file, "a", "/y"), (true, 3, 1, 1));
    let file = lines("user-agent: ?|user-agent: a|disallow: /");
    assert_eq!(answer(&file, "a", "/y"), (true, 3, 1, 1));
}

#[test]
fn unread_lines_of_the_whole_file() {
    let file = lines("allow: x|user-agent: b|disallow: y|user-agent: 9|allow: z");
    assert_eq!(answer(&file, "a", "/"), (false, 0, 4, 0));
    assert_eq!(answer(&file, "a", "/robots.txt"), (false, 0, 4, 0));
}

#[test]
fn the_files_own_path() {
    let file = lines("user-agent: *|disallow: /|allow: x");
    for path in ["/robots.txt", "/%72%6F%62%6f%74%73%2e%74%78%74"] {
        assert_eq!(answer(&file, "a", path), (false, 0, 1, 0));
    }
    for path in ["/robots.txt?x", "/Robots.txt", "/robots.txt/", "/robots.tx"] {
        assert_eq!(answer(&file, "a", path), (true, 2, 1, 1));
    }
}

#[test]
fn end_marks() {
    let check = |pattern: &[u8], path: &[u8], found: bool, compared: usize| {
        let answer = match_pattern(pattern, path);
        assert_eq!((answer.refusal, answer.found), (0, found));
        assert_eq!(answer.compared, compared);
    };
    // "/a%252" with an end mark.
    check(b"/a%2$", b"/a%252", true, 6);
    check(b"/a%2$", b"/a%2", true, 6);
    check(b"/a%2$", b"/a%2$", false, 0);
    check(b"/a%2$", b"/a%24", false, 0);
    // "%24" is no end mark.
    check(b"/a%24", b"/a$b", true, 5);
    check(b"/a%24", b"/a", false, 0);
    // "%24" and an end mark.
    check(b"/a$$", b"/a$", true, 5);
    check(b"/a$$", b"/a$$", false, 0);
    // Another "$" is a "%24".
    check(b"/a$b", b"/a$bc", true, 6);
    check(b"/a$*", b"/a$", true, 5);
    check(b"/$a", b"/", false, 0);
}

/// The first run is empty and costs nothing; the next one is a later run.
#[test]
fn patterns_that_begin_with_a_star() {
    let check = |pattern: &str, path: &str, found: bool, compared: usize| {
        let answer = match_pattern(pattern.as_bytes(), path.as_bytes());
        assert_eq!((answer.refusal, answer.found), (0, found), "{pattern}");
        assert_eq!(answer.compared, compared, "{pattern} {path}");
    };
    // All runs are empty.
    for pattern in ["*", "**", "*$", "**$", "***"] {
        check(pattern, "/", true, 0);
        check(pattern, "/a*b$", true, 0);
    }
    check("*/", "/a", true, 1);
    // "a" at 0, 1 and 2
    check("*a", "/ba", true, 3);
    check("**a*", "/ba", true, 3);
    // "a" at 0; at 1 it would pass
    check("*a", "/", false, 1);
    check("*ab", "/", false, 0);
    // only at 2, at 3, and under 0
    check("*.gif$", "/x.gif", true, 4);
    check("*.gif$", "/x.gifs", false, 1);
    check("*.gif$", "/x", false, 0);
    // at 0 too: the run isn't the first one
    check("*/x$", "/x", true, 2);
    check("*/x$", "//x", true, 2);
    // "%24" at 0 costs 1, at 1 costs 3; with an end mark only at 1
    check("*$*", "/$", true, 4);
    check("*$$", "/$", true, 3);
    // "%2A" is no star
    check("*%2A", "/*", true, 4);
    check("*%2A", "/a", false, 0);
    // inside an escape: "2A" at 0 and 1 costs 1 each, at 2 costs 2
    check("*2A", "/*", true, 4);
}

#[test]
fn deciding_by_a_pattern_that_begins_with_a_star() {
    // "*" weighs 1, as "/" does; then allow goes first.
    let file = lines("user-agent: a|disallow: *|allow: /");
    assert_eq!(answer(&file, "a", "/x"), (false, 3, 0, 1));
    let file = lines("user-agent: a|disallow: /|allow: *");
    assert_eq!(answer(&file, "a", "/x"), (false, 3, 0, 1));
    // "*$" and "**" weigh 2, "/*" too.
    let file = lines("user-agent: a|allow: *|disallow: *$");
    assert_eq!(answer(&file, "a", "/x"), (true, 3, 0, 0));
    let file = lines("user-agent: a|disallow: /*|disallow: **|allow: *");
    assert_eq!(answer(&file, "a", "/x"), (true, 2, 0, 1));
    // "*.gif$" weighs 6, "/x.gi" weighs 5 and "/x.gif" 6.
    let file = lines("user-agent: a|allow: /x.gi|disallow: *.gif$");
    assert_eq!(answer(&file, "a", "/x.gif"), (true, 3, 0, 5 + 4));
    let file = lines("user-agent: a|allow: /x.gif|disallow: *.gif$");
    assert_eq!(answer(&file, "a", "/x.gif"), (false, 2, 0, 6 + 4));
    // "$" begins no pattern, and the unreadable ones are counted.
    let file = lines("user-agent: a|disallow: $|disallow: $*|disallow: *\u{1}|disallow: *");
    assert_eq!(answer(&file, "a", "/x"), (true, 5, 3, 0));
    let file = lines("user-agent: *|disallow: *");
    assert_eq!(answer(&file, "a", "/robots.txt"), (false, 0, 0, 0));
    assert_eq!(answer(&file, "a", "/robots.txt?x"), (true, 2, 0, 0));
}

#[test]
fn normalising() {
    let cases: [(&[u8], &[u8]); 20] = [
        (b"/foo/bar?baz=quz", b"/foo/bar?baz=quz"),
        (b"/foo/bar/%62%61%7A", b"/foo/bar/baz"),
        (b"/foo/bar/\xE3\x83\x84", b"/foo/bar/%E3%83%84"),
        (b"/%e3%83%84", b"/%E3%83%84"),
        (b"/%2f%2F", b"/%2F%2F"),
        (b"/%2a*", b"/%2A%2A"),
        (b"/%24$", b"/%24%24"),
        (b"/%7e%7E~", b"/~~~"),
        (b"/%2D%2E%5F%30%39%41%5A%61%7A", b"/-._09AZaz"),
        (b"/%7f\x7F", b"/%7F%7F"),
        (b"/%00%20%23", b"/%00%20%23"),
        (b"/%", b"/%25"),
        (b"/%4", b"/%254"),
        (b"/%zz%4g%g4", b"/%25zz%254g%25g4"),
        (b"/%%41", b"/%25A"),
        (b"/%4%41", b"/%254A"),
        (b"/%2541", b"/%2541"),
        (b"/%25", b"/%25"),
        (b"/\x80\xFF", b"/%80%FF"),
        (
            b"/!\"&'()+,/:;<=>?@[\\]^`{|}",
            b"/!\"&'()+,/:;<=>?@[\\]^`{|}",
        ),
    ];
    for (path, expected) in cases {
        assert_eq!(normal(path), expected, "{}", String::from_utf8_lossy(path));
    }
}

/// The rule for a single octet, for all that a path may hold.
#[test]
fn normalising_each_octet() {
    for octet in 0x21..=0xFFu8 {
        if octet == b'#' {
            continue;
        }
        let is_kept = octet < 0x7F && !b"%*$".contains(&octet);
        let expected = if is_kept {
            vec![b'/', octet]
        } else {
            format!("/%{octet:02X}").into_bytes()
        };
        assert_eq!(normal(&[b'/', octet]), expected);
    }
}

/// An escape of each octet, in both cases of its digits.
#[test]
fn normalising_each_escape() {
    let unreserved = b"ABCDEFGHIJKLMNOPQRSTUVWXYZabcdefghijklmnopqrstuvwxyz0123456789-._~";
    for octet in 0..=255u8 {
        let upper = format!("/%{octet:02X}").into_bytes();
        let lower = format!("/%{octet:02x}").into_bytes();
        let expected = if unreserved.contains(&octet) {
            vec![b'/', octet]
        } else {
            upper.clone()
        };
        assert_eq!(normal(&upper), expected);
        assert_eq!(normal(&lower), expected);
    }
}

#[test]
fn delete_is_accepted_in_a_pattern() {
    let answer = match_pattern(b"/\x7F", b"/\x7F");
    assert_eq!(
        (answer.refusal, answer.found, answer.compared),
        (0, true, 4)
    );
}

#[test]
fn leading_marks() {
    let text = lines("user-agent: a|disallow: /");
    let marked = [MARK, &text].concat();
    let decision = decide(&marked, b"a", b"/");
    assert_eq!(
        (decision.disallow, decision.line, decision.place),
        (true, 2, 27)
    );
    assert_eq!(decision.length, 1);
    // Alone it is no line.
    assert_eq!(answer(MARK, "a", "/"), (false, 0, 0, 0));
    // Doubled or cut it is part of an unknown field.
    for mark in [
        [MARK, MARK].concat(),
        MARK[..2].to_vec(),
        MARK[1..].to_vec(),
    ] {
        let file = [mark.as_slice(), &text].concat();
        assert_eq!(answer(&file, "a", "/"), (false, 0, 0, 0));
    }
    // Elsewhere too.
    let file = [b"user-agent: a\n", MARK, b"disallow: /"].concat();
    assert_eq!(answer(&file, "a", "/"), (false, 0, 0, 0));
}

#[test]
fn line_endings() {
    let file = |ending: &str| format!("user-agent: a{ending}disallow: /{ending}");
    for (ending, line, place) in [
        ("\r", 2, 24),
        ("\n", 2, 24),
        ("\r\n", 2, 25),
        ("\n\r", 3, 25),
        ("\r\r", 3, 25),
        ("\n\n", 3, 25),
        ("\r\n\r\n", 3, 27),
        ("\r\r\n", 3, 26),
        ("\n\r\n", 3, 26),
        ("\r\n\r", 3, 26),
    ] {
        let decision = decide(file(ending).as_bytes(), b"a", b"/");
        assert_eq!(
            (decision.disallow, decision.line, decision.place),
            (true, line, place),
            "{ending:?}"
        );
    }
    // Other separators end no line.
    for no_ending in ["\x0B", "\x0C", "\u{85}", "\u{2028}"] {
        let text = file(no_ending);
        // all of it is the value of an agent line, and names a
        let whole = text.len() - "user-agent: ".len();
        assert_eq!(kind(text.as_bytes()), (4, 12, whole), "{no_ending:?}");
        assert_eq!(answer(text.as_bytes(), "a", "/"), (false, 0, 0, 0));
    }
}

#[test]
fn weight_is_of_the_normalised_pattern() {
    // "/AA" weighs 3, "/AA*" weighs 4.
    let file = lines("user-agent: a|allow: /%41%41|disallow: /AA*");
    assert_eq!(answer(&file, "a", "/AA"), (true, 3, 0, 6));
    // "/%25" weighs 4, "/*a" weighs 3.
    let file = lines("user-agent: a|disallow: /%|allow: /*a");
    assert_eq!(answer(&file, "a", "/%a"), (true, 2, 0, 4 + 1 + 4));
    // "/a$" weighs 3, "/a" weighs 2.
    let file = lines("user-agent: a|disallow: /a$|allow: /a");
    assert_eq!(answer(&file, "a", "/a"), (true, 2, 0, 4));
    // "/a$" weighs 3, as "/a*" does.
    let file = lines("user-agent: a|disallow: /a$|allow: /a*");
    assert_eq!(answer(&file, "a", "/a"), (false, 3, 0, 4));
}

#[test]
fn the_deciding_rule() {
    // The earliest of equals.
    let file = lines("user-agent: a|disallow: /a|disallow: /*|disallow: /a");
    assert_eq!(answer(&file, "a", "/a"), (true, 2, 0, 2 + 1 + 2));
    let file = lines("user-agent: a|allow: /a|allow: /*");
    assert_eq!(answer(&file, "a", "/a"), (false, 2, 0, 3));
    // Allow before disallow at equal weight, wherever it stands.
    let file = lines("user-agent: a|disallow: /a|allow: /*|allow: /a");
    assert_eq!(answer(&file, "a", "/a"), (false, 3, 0, 5));
    // The heaviest, wherever it stands.
    let file = lines("user-agent: a|allow: /|disallow: /ab|allow: /a");
    assert_eq!(answer(&file, "a", "/abc"), (true, 3, 0, 1 + 3 + 2));
    // A heavier rule that doesn't match decides nothing.
    let file = lines("user-agent: a|disallow: /|allow: /xyz");
    assert_eq!(answer(&file, "a", "/abc"), (true, 2, 0, 1 + 2));
}

#[test]
fn groups_that_apply() {
    // A named group takes the place of the "*" groups.
    let file = lines("user-agent: *|disallow: /|user-agent: a|allow: /x");
    assert_eq!(answer(&file, "a", "/y"), (false, 0, 0, 2));
    assert_eq!(answer(&file, "b", "/y"), (true, 2, 0, 1));
    // Even one without rules.
    let file = lines("user-agent: *|disallow: /|user-agent: a");
    assert_eq!(answer(&file, "a", "/y"), (false, 0, 0, 0));
    // All named groups apply, each once, in any letter case.
    let file = lines("user-agent: A|user-agent: a|disallow: /|user-agent: b|allow: /|user-agent: a|user-agent: *|allow: /z");
    assert_eq!(answer(&file, "a", "/y"), (true, 3, 0, 1 + 2));
    // All "*" groups apply.
    let file = lines("user-agent: *|disallow: /|user-agent: b|user-agent: *|allow: /y");
    assert_eq!(answer(&file, "a", "/y"), (false, 5, 0, 1 + 2));
    // No prefix names the crawler.
    let file = lines("user-agent: ab|disallow: /|user-agent: abcd|disallow: /");
    assert_eq!(answer(&file, "abc", "/y"), (false, 0, 0, 0));
    // Rules before the first agent line belong to none.
    let file = lines("disallow: /|user-agent: a|allow: /");
    assert_eq!(answer(&file, "a", "/y"), (false, 3, 0, 1));
    // Blank, noise and other lines change nothing.
    let file = lines("user-agent: a||noise|other: x|user-agent: b|# c|disallow: /||allow: /x");
    assert_eq!(answer(&file, "a", "/y"), (true, 7, 0, 1 + 2));
}

#[test]
fn an_unreadable_rule_divides_groups() {
    for rule in [
        "disallow: x",
        "allow: x",
        "disallow:",
        "allow:",
        "allow: /\u{1}",
        "allow: *\u{1}",
        "disallow: $",
        "allow: $*",
    ] {
        let text = format!("user-agent: a|{rule}|user-agent: b|disallow: /");
        let decision = decide(&lines(&text), b"a", b"/");
        assert!(!decision.disallow, "{rule}");
        let decision = decide(&lines(&text), b"b", b"/");
        assert_eq!((decision.disallow, decision.line), (true, 4), "{rule}");
    }
}

/// "The value's name is now its longest beginning of A-Z a-z - _ ; the rest is
/// ignored" (document 02, M-105). Value, crawler's name, and whether they meet.
#[test]
fn names_with_something_behind_them() {
    for (value, name, meets) in [
        ("DrydockBot/2.1", "DrydockBot", true),
        ("DrydockBot/2.1", "drydockbot", true),
        ("drydockBOT/2.1", "DrydockBot", true),
        ("DrydockBot/2.1", "Drydock", false),
        ("DrydockBot/2.1", "DrydockBots", false),
        ("DrydockBot/2.1", "DrydockBot-", false),
        ("Drydock", "DrydockBot", false),
        ("Drydock/2.1", "DrydockBot", false),
        ("Drydock Bot", "DrydockBot", false),
        ("Drydock Bot", "Drydock", true),
        ("Drydock Bot", "Bot", false),
        ("Bot 2.1", "bot", true),
        ("Bot/Drydock", "Drydock", false),
        ("Googlebot*", "Googlebot", true),
        ("a9", "a", true),
        ("a9b", "ab", false),
        ("a-_/", "a-_", true),
        ("a-/", "a", false),
        ("a:b", "a", true),
        ("a\u{0}", "a", true),
        ("a\u{e9}", "a", true),
        ("a/\u{1}\u{7f}", "a", true),
        // case is ignored in letters only
        ("-/", "_", false),
    ] {
        let file = format!("user-agent: {value}\ndisallow: /");
        let expected = (meets, if meets { 2 } else { 0 }, 0, usize::from(meets));
        assert_eq!(
            answer(file.as_bytes(), name, "/"),
            expected,
            "{value:?} {name}"
        );
    }
    for unread in [
        "",
        "*/2",
        "**",
        "*bot",
        "* bot",
        "2bot",
        "/bot",
        ".",
        "\u{e9}bot",
    ] {
        let file = format!("user-agent: {unread}\ndisallow: /");
        for name in ["bot", "a"] {
            let expected = (false, 0, 1, 0);
            assert_eq!(answer(file.as_bytes(), name, "/"), expected, "{unread:?}");
        }
    }
}

/// Each octet as the first, the middle and the last one of a value.
#[test]
fn each_octet_of_an_agents_value() {
    let letters = b"ABCDEFGHIJKLMNOPQRSTUVWXYZabcdefghijklmnopqrstuvwxyz";
    for octet in 0..=255u8 {
        let is_closed = |value: &[u8], name: &[u8]| {
            let file = [b"user-agent: ", value, b"\ndisallow: /"].concat();
            decide(&file, name, b"/").line > 0
        };
        let of_name = letters.contains(&octet) || b"-_".contains(&octet);
        let (first, middle, last) = ([octet, b'b'], [b'a', octet, b'b'], [b'a', octet]);
        for value in [first.as_slice(), &middle, &last] {
            assert_eq!(is_closed(value, value), of_name, "{octet:#X}");
        }
        assert_eq!(is_closed(&middle, b"a"), !of_name, "{octet:#X}");
        assert_eq!(is_closed(&last, b"a"), !of_name, "{octet:#X}");
        // spaces and tabs in front are dropped
        assert_eq!(
            is_closed(&first, b"b"),
            b" \t".contains(&octet),
            "{octet:#X}"
        );
    }
}

/// Groups read by those names.
#[test]
fn groups_named_with_something_behind_the_name() {
    // The "*" groups no longer apply, wherever they stand.
    let file = lines("user-agent: *|disallow: /|user-agent: a/2.1|allow: /x");
    assert_eq!(answer(&file, "a", "/y"), (false, 0, 0, 2));
    assert_eq!(answer(&file, "b", "/y"), (true, 2, 0, 1));
    let file = lines("user-agent: A 2|allow: /x|user-agent: *|disallow: /");
    assert_eq!(answer(&file, "a", "/y"), (false, 0, 0, 2));
    // A group without rules too.
    let file = lines("user-agent: *|disallow: /|user-agent: a/2.1");
    assert_eq!(answer(&file, "a", "/y"), (false, 0, 0, 0));
    // Two agent lines in one group, one with a version, in either order.
    let file = lines("user-agent: a/1|user-agent: b|disallow: /");
    assert_eq!(answer(&file, "a", "/y"), (true, 3, 0, 1));
    assert_eq!(answer(&file, "b", "/y"), (true, 3, 0, 1));
    let file = lines("user-agent: b|user-agent: a/1|disallow: /");
    assert_eq!(answer(&file, "a", "/y"), (true, 3, 0, 1));
    assert_eq!(answer(&file, "b", "/y"), (true, 3, 0, 1));
    // One crawler in two versions is one, and the group applies once.
    let file = lines("user-agent: a/1|user-agent: a/2|disallow: /");
    assert_eq!(answer(&file, "a", "/y"), (true, 3, 0, 1));
    // All groups that name it, with a version and without.
    let file =
        lines("user-agent: a|disallow: /|user-agent: A/2.1|allow: /y|user-agent: *|allow: /yz");
    assert_eq!(answer(&file, "a", "/yz"), (false, 4, 0, 1 + 2));
    // "*" with something behind it isn't everyone.
    let file = lines("user-agent: */2|disallow: /|user-agent: *|allow: /x");
    assert_eq!(answer(&file, "a", "/y"), (false, 0, 1, 2));
}

/// The longest names that a file and a caller may hold. A longer one in a file
/// is readable, isn't cut, and meets nobody.
#[test]
fn long_names() {
    let name = "x".repeat(64);
    for behind in ["", "/2.1", " 2", "*"] {
        let file = format!("user-agent: {}{behind}\ndisallow: /", name.to_uppercase());
        assert_eq!(answer(file.as_bytes(), &name, "/"), (true, 2, 0, 1));
        for more in ["x", "xx", "-"] {
            let file = format!("user-agent: {name}{more}{behind}\ndisallow: /");
            assert_eq!(answer(file.as_bytes(), &name, "/"), (false, 0, 0, 0));
        }
    }
}
