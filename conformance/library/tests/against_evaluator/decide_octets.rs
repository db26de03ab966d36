//! Every octet in every part of a file, a name and a path.

use crate::ask::{each_between, each_two_between};
use crate::deciding::check_decide;

/// Asks with each octet between these two parts of a file.
fn check_between(before: &[u8], after: &[u8]) {
    each_between(before, after, |file| {
        for path in [b"/".as_slice(), b"/a", b"/ab", b"/robots.txt"] {
            check_decide(file, b"a", path);
        }
    });
}

/// In every place of a file: at its ends, between and inside its lines.
#[test]
fn in_every_place() {
    for (before, after) in [
        ("", ""),
        ("", "user-agent:a\ndisallow:/"),
        ("user-agent:", "\ndisallow:/"),
        ("user-agent:a", "\ndisallow:/"),
        ("user-agent:a", "a\ndisallow:/"),
        ("user-agent:a/", "\ndisallow:/"),
        ("user-agent:*", "\ndisallow:/"),
        ("user-agent", "a\ndisallow:/"),
        ("user-agent:a", "disallow:/"),
        ("user-agent:a\n", "disallow:/"),
        ("user-agent:a\r", "\ndisallow:/"),
        ("user-agent:a\n", "\ndisallow:/"),
        ("user-agent:a\ndisallow", "/"),
        ("user-agent:a\ndisallow:", "/"),
        ("user-agent:a\ndisallow:", "b"),
        ("user-agent:a\ndisallow:*", ""),
        ("user-agent:a\nallow:/\ndisallow:*", "$"),
        ("user-agent:a\ndisallow:/", ""),
        ("user-agent:a\ndisallow:/", "b"),
        ("user-agent:a\ndisallow:/a", "\nallow:/"),
        ("user-agent:a\ndisallow:/", "user-agent:b\nallow:/a"),
        ("user-agent:a\ndisallow:/\n", "allow:/"),
        ("user-agent:a\n#", "disallow:/"),
    ] {
        check_between(before.as_bytes(), after.as_bytes());
    }
}

/// Two octets at the front, behind a first and before a last one of the mark,
/// and between two lines.
#[test]
fn two_octets() {
    let rules = b"user-agent:a\ndisallow:/".as_slice();
    let behind = [b"\xBF", rules].concat();
    for (before, after) in [
        (b"".as_slice(), rules),
        (b"\xEF", rules),
        (b"", &behind),
        (b"user-agent:a", b"disallow:/"),
        (b"user-agent:a\ndisallow:/", b"allow:/"),
    ] {
        each_two_between(before, after, |file| {
            check_decide(file, b"a", b"/a");
        });
    }
}

/// Each octet of a name with each one of an agent's value, alone and inside.
#[test]
fn names_and_agents() {
    let (mut equal, mut before) = (0, 0);
    for octet in 0..=255u8 {
        each_between(b"user-agent:", b"\ndisallow:/", |file| {
            check_decide(file, &[octet], b"/");
        });
        let name = [b'x', octet, b'y'];
        for agent in 0..=255u8 {
            let file = [b"user-agent:x".as_slice(), &[agent], b"Y\ndisallow:/"].concat();
            equal += usize::from(check_decide(&file, &name, b"/").line > 0);
        }
        each_between(
            &[b"user-agent:x", [octet].as_slice()].concat(),
            b"\ndisallow:/",
            |file| {
                check_decide(file, b"X", b"/");
            },
        );
        let file = [b"user-agent:x".as_slice(), &[octet], b"Y\ndisallow:/"].concat();
        before += usize::from(check_decide(&file, b"X", b"/").line > 0);
    }
    // each of 52 letters in two cases, "-" and "_"
    assert_eq!(equal, 2 * 52 + 2);
    // the others end the name x, and some of them the value too
    assert_eq!(before, 256 - 54);
}

/// Each octet in a rule with each one in the path.
#[test]
fn patterns_and_paths() {
    for octet in 0..=255u8 {
        for rules in ["allow:/\ndisallow:/", "allow:*\ndisallow:*"] {
            let before = format!("user-agent:*\n{rules}");
            each_between(before.as_bytes(), b"", |file| {
                check_decide(file, b"a", &[b'/', octet]);
            });
        }
    }
}
