//! Files, names and paths at their limits, with counts worked out by hand.

use evaluator::{Decision, RFC9309};

use crate::ask::exact;
use crate::deciding::{check_decide, check_decision, check_no_rule, check_refused_decision};
use crate::texts::{lengthened, slash_and, MOST_FILE, MOST_NAME, MOST_NORMALISED, MOST_PATH};

/// Line, place and length of a rule, and the counts.
type Rule = ([usize; 3], [usize; 2]);

/// Decided by a disallow rule.
fn disallowed(([line, place, length], [unread, compared]): Rule) -> Decision {
    Decision {
        refusal: 0,
        disallow: true,
        line,
        place,
        length,
        unread,
        compared,
    }
}

/// The head and as many of the line as fit; the rest is comment. Gives how
/// many there are too.
fn filled(head: &[u8], line: &[u8]) -> (Vec<u8>, usize) {
    let times = (MOST_FILE - head.len()) / line.len();
    let mut file = [head, &line.repeat(times)].concat();
    file.resize(MOST_FILE, b'#');
    (file, times)
}

/// "a 512,000-octet file [..] One more octet [..] is refused."
#[test]
fn the_longest_file() {
    let rule = b"user-agent:a\ndisallow:/".as_slice();
    for block in [
        "#", "\n", "\r", "\r\n", "\n\r", " ", "x", ":", "\0", "\u{feff}",
    ] {
        for (beginning, end) in [(b"".as_slice(), b"".as_slice()), (rule, b""), (b"", rule)] {
            let file = lengthened(beginning, block.as_bytes(), end, MOST_FILE);
            let answer = check_decide(&file, b"a", b"/x");
            assert_eq!(answer.refusal, 0, "{block:?}");
            let file = lengthened(beginning, block.as_bytes(), end, MOST_FILE + 1);
            check_refused_decision(&file, b"a", b"/x", 1);
        }
    }
}

/// The rule that decides stands at the very end, behind as many lines as fit.
#[test]
fn the_last_octet_of_the_longest_file() {
    let tail = b"user-agent:a\ndisallow:/";
    let front = MOST_FILE - tail.len();
    for (beginning, block, lines) in [
        ("", "\n", front),
        ("", "\r", front),
        // the last ending is CR alone
        ("", "\r\n", front.div_ceil(2)),
        // LF, and then CR LF each time
        ("", "\n\r", front.div_ceil(2)),
        ("#", "#\n", front / 2),
    ] {
        let file = lengthened(beginning.as_bytes(), block.as_bytes(), tail, MOST_FILE);
        let expected = disallowed(([lines + 2, MOST_FILE - 1, 1], [0, 1]));
        check_decision((&file, b"a", b"/"), expected);
    }
}

#[test]
fn one_pattern_fills_the_file() {
    let file = lengthened(b"user-agent:*\ndisallow:/", b"*", b"", MOST_FILE);
    for path in [b"/".to_vec(), slash_and(b'%', MOST_PATH)] {
        // "/" 1, and each later run is empty
        let expected = disallowed(([2, 22, MOST_FILE - 22], [0, 1]));
        check_decision((&file, b"a", &path), expected);
        // every run is empty
        let file = lengthened(b"user-agent:*\ndisallow:", b"*", b"", MOST_FILE);
        let expected = disallowed(([2, 22, MOST_FILE - 22], [0, 0]));
        check_decision((&file, b"a", &path), expected);
    }
    // one run, too long for any path
    let file = lengthened(b"user-agent:*\ndisallow:/", b"%", b"", MOST_FILE);
    check_no_rule(&file, b"a", &slash_and(b'%', MOST_PATH), 0, 0);
}

#[test]
fn as_many_rules_as_fit() {
    let (file, times) = filled(b"user-agent:*\n", b"disallow:/\n");
    assert_eq!(times, 46_544);
    check_decision((&file, b"a", b"/x"), disallowed(([2, 22, 1], [0, times])));
    check_no_rule(&file, b"a", b"/robots.txt", 0, 0);
    let (file, times) = filled(b"user-agent:*\n", b"disallow:*\n");
    assert_eq!(times, 46_544);
    check_decision((&file, b"a", b"/x"), disallowed(([2, 22, 1], [0, 0])));
    check_no_rule(&file, b"a", b"/robots.txt", 0, 0);
}

/// The heaviest of them stands last.
#[test]
fn as_many_rules_as_fit_and_a_heavier_one() {
    let head = b"user-agent:*\n";
    let tail = b"\ndisallow:/x";
    let rules = (MOST_FILE - head.len() - tail.len()) / b"allow:/\n".len();
    let mut file = [head.as_slice(), &b"allow:/\n".repeat(rules)].concat();
    file.resize(MOST_FILE - tail.len(), b'#');
    file.extend(tail);
    let comment = (MOST_FILE - head.len() - tail.len()) % b"allow:/\n".len();
    assert!(comment > 0, "the rest is a line");
    let expected = disallowed(([rules + 3, MOST_FILE - 2, 2], [0, rules + 2]));
    check_decision((&file, b"a", b"/x"), expected);
}

#[test]
fn as_many_unreadable_lines_as_fit() {
    for line in [
        "allow:x\n",
        "disallow:$\r",
        "user-agent:\n",
        "user-agent:9\r\n",
        "user-agent:*a\n",
    ] {
        let (file, times) = filled(b"", line.as_bytes());
        check_no_rule(&file, b"a", b"/", times, 0);
        check_no_rule(&file, b"a", b"/robots.txt", times, 0);
    }
}

/// A group of as many agent lines as fit, the crawler's the first or the last.
#[test]
fn as_many_agent_lines_as_fit() {
    let (own, other) = (b"user-agent:a/2\n".as_slice(), b"user-agent:b\n".as_slice());
    let rule = b"disallow:/".as_slice();
    let times = (MOST_FILE - own.len() - rule.len()) / other.len();
    let others = other.repeat(times);
    let place = own.len() + others.len() + rule.len() - 1;
    for agents in [[own, &others].concat(), [others.as_slice(), own].concat()] {
        let file = [agents.as_slice(), rule].concat();
        let expected = disallowed(([times + 2, place, 1], [0, 1]));
        check_decision((&file, b"a", b"/"), expected);
        check_decision((&file, b"b", b"/"), expected);
        check_no_rule(&file, b"c", b"/", 0, 0);
    }
}

/// As many groups as fit: all of the crawler's apply, and none of the others.
#[test]
fn as_many_groups_as_fit() {
    let groups = b"user-agent:a\ndisallow:/\nuser-agent:b\nallow:/b\nuser-agent:*\nallow:/\n";
    let (file, times) = filled(b"", groups);
    check_decision((&file, b"a", b"/b"), disallowed(([2, 22, 1], [0, times])));
    let allowed = check_decide(&file, b"B", b"/b");
    assert_eq!((allowed.disallow, allowed.line), (false, 4));
    assert_eq!(allowed.compared, 2 * times);
    let allowed = check_decide(&file, b"c", b"/b");
    assert_eq!((allowed.disallow, allowed.line), (false, 6));
    assert_eq!(allowed.compared, times);
}

/// "a 64-octet name"
#[test]
fn the_longest_name() {
    for octet in *b"xX-_" {
        let name = [octet; MOST_NAME + 1];
        let inside = &name[..MOST_NAME];
        let file = [b"user-agent:".as_slice(), inside, b"\ndisallow:/"].concat();
        let expected = disallowed(([2, file.len() - 1, 1], [0, 1]));
        check_decision((&file, inside, b"/"), expected);
        check_no_rule(&file, &name[..MOST_NAME - 1], b"/", 0, 0);
        check_refused_decision(&file, &name, b"/", 2);
        // with something behind it too
        let file = [b"user-agent:".as_slice(), inside, b"/2.1\ndisallow:/"].concat();
        let expected = disallowed(([2, file.len() - 1, 1], [0, 1]));
        check_decision((&file, inside, b"/"), expected);
        check_no_rule(&file, &name[..MOST_NAME - 1], b"/", 0, 0);
        // a longer one in the file is readable, and another one
        for behind in ["", "/2.1", " ", "*"] {
            let behind = [behind.as_bytes(), b"\ndisallow:/"].concat();
            let file = [b"user-agent:".as_slice(), &name, &behind].concat();
            check_no_rule(&file, inside, b"/", 0, 0);
            check_refused_decision(&file, &name, b"/", 2);
        }
    }
}

/// A value fills the file, a name or what stands behind one: nothing is cut.
#[test]
fn one_agents_value_fills_the_file() {
    let (head, tail) = (b"user-agent:a".as_slice(), b"\ndisallow:/".as_slice());
    for block in ["/", " 2", "*", "9", "\u{e9}", "\0", ":a"] {
        let file = lengthened(head, block.as_bytes(), tail, MOST_FILE);
        let expected = disallowed(([2, MOST_FILE - 1, 1], [0, 1]));
        check_decision((&file, b"A", b"/"), expected);
        check_no_rule(&file, b"aa", b"/", 0, 0);
        check_no_rule(&file, b"b", b"/", 0, 0);
    }
    for block in ["a", "-a"] {
        let file = lengthened(head, block.as_bytes(), tail, MOST_FILE);
        for length in [1, 2, MOST_NAME - 1, MOST_NAME] {
            let name = &file[b"user-agent:".len()..][..length];
            check_no_rule(&file, name, b"/", 0, 0);
        }
    }
    let file = lengthened(b"user-agent:*", b"a", tail, MOST_FILE);
    check_no_rule(&file, b"a", b"/", 1, 0);
}

/// "a 2,048-octet path (at most 6,142 normalised)"
#[test]
fn the_longest_path() {
    let head = b"user-agent:*\ndisallow:".as_slice();
    for octet in *b"a/%\xFF" {
        let path = slash_and(octet, MOST_PATH);
        let file = [head, b"/"].concat();
        check_decision((&file, b"a", &path), disallowed(([2, 22, 1], [0, 1])));
        let longer = slash_and(octet, MOST_PATH + 1);
        check_refused_decision(&file, b"a", &longer, 3);
    }
    let path = slash_and(b'%', MOST_PATH);
    // the path itself, with an end mark and with one octet more
    for (end, found, compared) in [
        ("", true, MOST_NORMALISED),
        ("$", true, MOST_NORMALISED),
        ("*$", true, MOST_NORMALISED),
        ("z", false, 0),
    ] {
        let file = [head, &path, end.as_bytes()].concat();
        if found {
            let length = MOST_PATH + end.len();
            let expected = disallowed(([2, 22, length], [0, compared]));
            check_decision((&file, b"a", &path), expected);
        } else {
            check_no_rule(&file, b"a", &path, 0, compared);
        }
    }
}

/// "No rules file can make a question dear": of runs of this form, behind "*"
/// or "/*", those of 118 "%" behind "*" make a file the dearest. One number is
/// asked for.
#[test]
fn a_dear_file() {
    let line = [b"allow:*".as_slice(), &b"%".repeat(118), b"b\n"].concat();
    let (file, times) = filled(b"user-agent:*\n", &line);
    let path = slash_and(b'%', MOST_PATH);
    // the run has 355 octets and is tried at 0 to 5,787: at 1,929 of these
    // places a "%25" begins and all is compared, at 3,859 the first octet
    // differs
    let expected = times * (1_929 * 355 + 3_859);
    assert_eq!((times, expected), (4_031, 2_775_964_274));
    let given = [exact(&file), exact(b"a"), exact(&path)];
    let compared = library::decide_compared(RFC9309, &given[0], &given[1], &given[2]);
    assert_eq!(compared, expected);
    assert_eq!(evaluator::decide(&file, b"a", &path).compared, expected);
    // each pattern weighs the star and its run
    let bound = times * 356 * MOST_NORMALISED;
    assert!(compared <= bound, "{compared} compared, at most {bound}");
}

/// "at most the summed weights of those rules, times the octets of the
/// normalised path"
#[test]
fn the_count_is_bounded() {
    let (mut most, mut dear) = (0, 0);
    for case in generator::derived_decide_cases(generator::SEED, 20_000) {
        let (file, name, path) = (&case.file, &case.name, &case.path);
        let compared = library::decide_compared(RFC9309, file, name, path);
        let bound = evaluator::compared_bound(RFC9309, file, name, path);
        assert!(
            compared <= bound,
            "{compared} compared, bound {bound}: {case:?}"
        );
        most = most.max(compared);
        dear += usize::from(compared > path.len());
    }
    println!("most {most}, {dear} compared more than the path's octets");
    assert!(most > 10_000 && dear > 1_000, "{most}, {dear}");
}
