//! Every octet in every part of a line.

use evaluator::LineKind;

use crate::ask::{check_line, each_between, each_two_between};
use crate::texts::TAILS;

const NAMES: [&[u8]; 3] = [b"user-agent", b"allow", b"disallow"];

/// Values of all sorts: of readable and unreadable agents and patterns. The
/// star is a readable one of both.
const VALUES: [&[u8]; 5] = [b"bot", b"bot/2", b"*", b"/x", b""];

/// Checks the lines that have each octet between these two parts.
fn check_between(before: &[u8], after: &[u8]) {
    each_between(before, after, |line| {
        check_line(line);
    });
}

/// Checks the lines that have each two octets between these two parts.
fn check_two_between(before: &[u8], after: &[u8]) {
    each_two_between(before, after, |line| {
        check_line(line);
    });
}

#[test]
fn alone() {
    check_line(b"");
    check_between(b"", b"");
    check_two_between(b"", b"");
}

#[test]
fn in_place_of_an_octet_of_a_field_name() {
    for name in NAMES {
        for at in 0..name.len() {
            for value in VALUES {
                let after = [&name[at + 1..], b":", value].concat();
                check_between(&name[..at], &after);
            }
        }
    }
}

#[test]
fn put_into_a_field_name() {
    for name in NAMES {
        for at in 0..=name.len() {
            for value in VALUES {
                let after = [&name[at..], b":", value].concat();
                check_between(&name[..at], &after);
            }
        }
    }
}

#[test]
fn field_names_cut_at_either_end() {
    for name in NAMES {
        for at in 0..=name.len() {
            for value in VALUES {
                check_line(&[&name[at..], b":", value].concat());
                check_line(&[&name[..at], b":", value].concat());
                check_line(&[&name[..at], value].concat());
            }
        }
    }
}

#[test]
fn field_names_in_every_mixture_of_cases() {
    for name in NAMES {
        for choice in 0..1_usize << name.len() {
            let upper = |at: usize| choice >> at & 1 == 1;
            let field = name.iter().enumerate().map(|(at, octet)| match upper(at) {
                true => octet.to_ascii_uppercase(),
                false => *octet,
            });
            let line: Vec<u8> = field.chain(*b": /x").collect();
            check_line(&line);
        }
    }
}

#[test]
fn on_both_sides_of_the_colon() {
    for name in NAMES {
        for value in VALUES {
            let before = [name, b":"].concat();
            check_two_between(&before, value);
            let after = [b":", value].concat();
            check_two_between(name, &after);
            for octet in 0..=255 {
                check_between(&[name, &[octet], b":"].concat(), value);
            }
        }
    }
}

#[test]
fn in_an_agents_value() {
    for colon in [b"user-agent:".as_slice(), b" User-Agent\t: "] {
        for (before, after) in [
            ("", ""),
            ("", "bot"),
            ("b", "t"),
            ("bot", ""),
            ("bot/", "2"),
            ("", "*"),
            ("*", ""),
        ] {
            let before = [colon, before.as_bytes()].concat();
            check_between(&before, after.as_bytes());
            check_two_between(&before, after.as_bytes());
        }
    }
}

#[test]
fn in_a_pattern() {
    for colon in [b"allow:".as_slice(), b"disallow:", b"\tDisallow : "] {
        for (before, after) in [
            ("", ""),
            ("", "/x"),
            ("", "*"),
            ("/", "x"),
            ("/x", ""),
            ("*", ""),
        ] {
            let before = [colon, before.as_bytes()].concat();
            check_between(&before, after.as_bytes());
            check_two_between(&before, after.as_bytes());
        }
    }
}

/// Library and evaluator give these numbers.
fn check_told(line: &[u8], [refusal, kind, place, length]: [usize; 4]) {
    let expected = LineKind {
        refusal,
        kind,
        place,
        length,
    };
    assert_eq!(check_line(line), expected, "{}", line.escape_ascii());
}

/// "unread exactly if that beginning is empty and the value isn't exactly "*""
/// (M-105).
#[test]
fn as_the_first_octet_of_an_agents_value() {
    for octet in 0..=255 {
        let line = [b"user-agent:", [octet].as_slice(), b"x"].concat();
        match octet {
            b'\r' | b'\n' => check_told(&line, [9, 0, 0, 0]),
            // comment from there on
            b'#' => check_told(&line, [0, 5, 0, 0]),
            // dropped, and "x" is the value
            b' ' | b'\t' => check_told(&line, [0, 4, 12, 1]),
            b'A'..=b'Z' | b'a'..=b'z' | b'-' | b'_' => check_told(&line, [0, 4, 11, 2]),
            _ => check_told(&line, [0, 5, 11, 2]),
        }
    }
}

/// "the rest is ignored", but "places and lengths stay the whole value's"
/// (M-105).
#[test]
fn behind_a_name() {
    for octet in 0..=255 {
        let middle = [b"user-agent:x", [octet].as_slice(), b"2"].concat();
        let last = [b"user-agent:x".as_slice(), &[octet]].concat();
        let lengths = match octet {
            b'\r' | b'\n' => {
                check_told(&middle, [9, 0, 0, 0]);
                check_told(&last, [9, 0, 0, 0]);
                continue;
            }
            b'#' => [1, 1],
            b' ' | b'\t' => [3, 1],
            _ => [3, 2],
        };
        check_told(&middle, [0, 4, 11, lengths[0]]);
        check_told(&last, [0, 4, 11, lengths[1]]);
    }
}

/// Nothing may stand behind a star.
#[test]
fn behind_a_star_as_an_agents_value() {
    for octet in 0..=255 {
        let line = [b"user-agent:*".as_slice(), &[octet]].concat();
        match octet {
            b'\r' | b'\n' => check_told(&line, [9, 0, 0, 0]),
            // comment, or dropped: "*" is the value
            b'#' | b' ' | b'\t' => check_told(&line, [0, 4, 11, 1]),
            _ => check_told(&line, [0, 5, 11, 2]),
        }
    }
}

/// "a readable pattern begins with "/" or "*"" (M-102).
#[test]
fn as_the_first_octet_of_a_pattern() {
    for octet in 0..=255 {
        let line = [b"allow:", [octet].as_slice(), b"x"].concat();
        match octet {
            b'\r' | b'\n' => check_told(&line, [9, 0, 0, 0]),
            // comment from there on
            b'#' => check_told(&line, [0, 6, 0, 0]),
            // dropped, and "x" is the pattern
            b' ' | b'\t' => check_told(&line, [0, 8, 7, 1]),
            b'/' | b'*' => check_told(&line, [0, 7, 6, 2]),
            _ => check_told(&line, [0, 8, 6, 2]),
        }
    }
}

/// "no octet under 0x21; 0x7F is accepted", and no octet over it is a character
/// by itself.
#[test]
fn behind_a_star() {
    for octet in 0..=255 {
        let line = [b"disallow:*".as_slice(), &[octet]].concat();
        match octet {
            b'\r' | b'\n' => check_told(&line, [9, 0, 0, 0]),
            // comment, or dropped: "*" is the pattern
            b'#' | b' ' | b'\t' => check_told(&line, [0, 10, 9, 1]),
            0x21..=0x7F => check_told(&line, [0, 10, 9, 2]),
            _ => check_told(&line, [0, 11, 9, 2]),
        }
    }
}

#[test]
fn before_and_in_a_comment() {
    for line in [b"user-agent: bot".as_slice(), b"allow: /x", b"x", b""] {
        check_two_between(line, b"#:");
        check_two_between(&[line, b"#"].concat(), b"");
    }
}

/// Both ends of the line, and both ends of the value.
#[test]
fn at_both_ends() {
    for line in [b"user-agent: bot".as_slice(), b"allow: /x", b"x", b":"] {
        check_two_between(b"", line);
        check_two_between(line, b"");
        for octet in 0..=255 {
            check_between(&[&[octet], line].concat(), b"");
        }
    }
}

/// A first octet of UTF-8 and every second one, at the end of the pattern and
/// inside it, and with tails behind them.
#[test]
fn two_octets_of_utf8() {
    for after in ["", "x", "/", "\u{80}"] {
        check_two_between(b"allow:/", after.as_bytes());
        check_two_between(b"disallow:/x", after.as_bytes());
    }
    check_two_between(b"allow:/", b"\x80");
    check_two_between(b"allow:/", b"\x80\x80");
    check_two_between(b"allow:/", b"\xBF\xBF\xBF");
    check_two_between(b"disallow:*", b"\x80");
    check_two_between(b"disallow:*", b"\x80\x80");
}

/// Each octet as the second and as the third of three.
#[test]
fn three_octets_of_utf8() {
    for lead in 0xC0..=0xFF {
        for tail in TAILS {
            for after in [b"".as_slice(), b"x", b"\x80"] {
                check_between(b"allow:/".as_slice(), &[&[lead, tail], after].concat());
                check_between(
                    &[b"allow:/".as_slice(), &[lead]].concat(),
                    &[&[tail], after].concat(),
                );
                check_between(&[b"allow:/".as_slice(), &[lead, tail]].concat(), after);
            }
        }
    }
}

/// Each octet as the second, the third and the fourth of four.
#[test]
fn four_octets_of_utf8() {
    for lead in 0xEF..=0xF6 {
        for one in TAILS {
            for other in TAILS {
                for after in [b"".as_slice(), b"x"] {
                    let before = [b"disallow:/".as_slice(), &[lead]].concat();
                    check_between(&before, &[&[one, other], after].concat());
                    check_between(
                        &[&before, [one].as_slice()].concat(),
                        &[&[other], after].concat(),
                    );
                    check_between(&[&before, [one, other].as_slice()].concat(), after);
                }
            }
        }
    }
}
