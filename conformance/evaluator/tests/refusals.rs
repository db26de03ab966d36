//! Every refusal, just inside and just outside, and the order of the tests.

use evaluator::{decide, line_kind, match_pattern, normalise, program};
use evaluator::{Decision, LineKind, Matched, Normalised};

const MOST_OCTETS: usize = 512_000;
const MOST_NAME: usize = 64;
const MOST_PATH: usize = 2_048;
const MOST_NORMAL: usize = 6_142;
const MOST_INPUT: usize = 65_536;

/// "/" and then the octet, up to the length.
fn path_of(length: usize, octet: u8) -> Vec<u8> {
    let mut path = vec![octet; length];
    path[0] = b'/';
    path
}

/// "A refused decision holds its number, disallow, and zeros."
fn refused_decision(refusal: usize) -> Decision {
    Decision {
        refusal,
        disallow: true,
        line: 0,
        place: 0,
        length: 0,
        unread: 0,
        compared: 0,
    }
}

/// An answered decision in which no rule decided and none was unread.
const NO_RULE: Decision = Decision {
    refusal: 0,
    disallow: false,
    line: 0,
    place: 0,
    length: 0,
    unread: 0,
    compared: 0,
};

fn refused_match(refusal: usize) -> Matched {
    Matched {
        refusal,
        found: false,
        compared: 0,
    }
}

fn refused_line(refusal: usize) -> LineKind {
    LineKind {
        refusal,
        kind: 0,
        place: 0,
        length: 0,
    }
}

fn is_name_octet(octet: u8) -> bool {
    b"ABCDEFGHIJKLMNOPQRSTUVWXYZabcdefghijklmnopqrstuvwxyz-_".contains(&octet)
}

#[test]
fn decide_length_of_the_file() {
    assert_eq!(decide(b"", b"a", b"/"), NO_RULE);
    assert_eq!(decide(&vec![b'#'; MOST_OCTETS], b"a", b"/"), NO_RULE);
    assert_eq!(
        decide(&vec![b'#'; MOST_OCTETS + 1], b"a", b"/"),
        refused_decision(1)
    );
}

#[test]
fn decide_name() {
    assert_eq!(decide(b"", b"", b"/"), refused_decision(2));
    assert_eq!(decide(b"", &[b'a'; MOST_NAME], b"/"), NO_RULE);
    assert_eq!(
        decide(b"", &[b'a'; MOST_NAME + 1], b"/"),
        refused_decision(2)
    );
    for octet in 0..=255 {
        for name in [vec![octet], vec![b'a', octet], vec![octet, b'Z']] {
            let expected = if is_name_octet(octet) {
                NO_RULE
            } else {
                refused_decision(2)
            };
            assert_eq!(decide(b"", &name, b"/"), expected, "{name:?}");
        }
    }
    // what may stand behind a name in a file may not in the crawler's own
    for value in ["a/2.1", "a 2.1", "a*"] {
        let file = format!("user-agent: {value}\ndisallow: /");
        let answer = decide(file.as_bytes(), value.as_bytes(), b"/");
        assert_eq!(answer, refused_decision(2), "{value}");
    }
}

#[test]
fn decide_path() {
    assert_eq!(decide(b"", b"a", b""), refused_decision(3));
    assert_eq!(decide(b"", b"a", &path_of(MOST_PATH, b'x')), NO_RULE);
    assert_eq!(
        decide(b"", b"a", &path_of(MOST_PATH + 1, b'x')),
        refused_decision(3)
    );
    for octet in 0..=255u8 {
        let expected = if octet == b'/' {
            NO_RULE
        } else {
            refused_decision(4)
        };
        assert_eq!(decide(b"", b"a", &[octet]), expected, "{octet:#X}");
        assert_eq!(decide(b"", b"a", &[octet, b'/']), expected, "{octet:#X}");
        let expected = if octet <= 0x20 || octet == b'#' {
            refused_decision(5)
        } else {
            NO_RULE
        };
        assert_eq!(decide(b"", b"a", &[b'/', octet]), expected, "{octet:#X}");
        assert_eq!(
            decide(b"", b"a", &[b'/', octet, b'x']),
            expected,
            "{octet:#X}"
        );
    }
}

#[test]
fn decide_order() {
    let long_file = vec![b'x'; MOST_OCTETS + 1];
    assert_eq!(decide(&long_file, b"", b""), refused_decision(1));
    assert_eq!(decide(&long_file, b"a", b"x#"), refused_decision(1));
    assert_eq!(decide(b"", b"*", b""), refused_decision(2));
    assert_eq!(decide(b"", b"a b", b"x#"), refused_decision(2));
    assert_eq!(
        decide(b"", b"a", &vec![b'#'; MOST_PATH + 1]),
        refused_decision(3)
    );
    assert_eq!(decide(b"", b"a", b"#"), refused_decision(4));
    assert_eq!(decide(b"", b"a", b" /"), refused_decision(4));
    assert_eq!(decide(b"", b"a", b"/#"), refused_decision(5));
}

/// A refused decision reports no unread line and no deciding rule.
#[test]
fn decide_zeros() {
    let file = b"user-agent: ?\ndisallow: x\nuser-agent: a\ndisallow: /";
    assert_eq!(decide(file, b"a", b"/ "), refused_decision(5));
    assert_eq!(decide(file, b"a", b"a"), refused_decision(4));
    assert_eq!(decide(file, b"a", b""), refused_decision(3));
    assert_eq!(decide(file, b"0", b"/"), refused_decision(2));
}

#[test]
fn match_length_of_the_pattern() {
    // The "/" costs 1 and every star is followed by an empty run.
    assert_eq!(
        match_pattern(&path_of(MOST_OCTETS, b'*'), b"/"),
        Matched {
            refusal: 0,
            found: true,
            compared: 1
        }
    );
    // Nothing but stars costs nothing.
    assert_eq!(
        match_pattern(&vec![b'*'; MOST_OCTETS], b"/"),
        Matched {
            refusal: 0,
            found: true,
            compared: 0
        }
    );
    // A run longer than the path costs nothing.
    assert_eq!(
        match_pattern(&path_of(MOST_OCTETS, b'/'), b"/"),
        Matched {
            refusal: 0,
            found: false,
            compared: 0
        }
    );
    assert_eq!(
        match_pattern(&path_of(MOST_OCTETS + 1, b'*'), b"/"),
        refused_match(1)
    );
    assert_eq!(
        match_pattern(&vec![b'*'; MOST_OCTETS + 1], b"/"),
        refused_match(1)
    );
}

#[test]
fn match_path_and_pattern() {
    assert_eq!(match_pattern(b"/", b""), refused_match(3));
    assert_eq!(match_pattern(b"/", &path_of(MOST_PATH, b'x')).refusal, 0);
    assert_eq!(
        match_pattern(b"/", &path_of(MOST_PATH + 1, b'x')),
        refused_match(3)
    );
    assert_eq!(match_pattern(b"/", b"x"), refused_match(4));
    assert_eq!(match_pattern(b"/", b"/x y"), refused_match(5));
    assert_eq!(match_pattern(b"", b"/"), refused_match(8));
}

/// "a readable pattern begins with "/" or "*"", and with nothing else.
#[test]
fn match_octets_of_the_pattern() {
    let refusal = |pattern: &[u8]| match_pattern(pattern, b"/").refusal;
    for octet in 0..=255u8 {
        let expected = if b"/*".contains(&octet) { 0 } else { 8 };
        for rest in [b"".as_slice(), b"/", b"*", b"$", b"*$", b"a"] {
            let pattern = [&[octet], rest].concat();
            assert_eq!(refusal(&pattern), expected, "{pattern:?}");
        }
        // An octet over 0x7F needs others beside it.
        let readable = octet > 0x20 && octet != b'#' && octet <= 0x7F;
        let expected = if readable { 0 } else { 8 };
        for first in [b"/".as_slice(), b"*", b"**", b"/*"] {
            let pattern = [first, &[octet]].concat();
            assert_eq!(refusal(&pattern), expected, "{pattern:?}");
        }
    }
}

#[test]
fn match_order() {
    let long_pattern = vec![b' '; MOST_OCTETS + 1];
    assert_eq!(match_pattern(&long_pattern, b""), refused_match(1));
    assert_eq!(match_pattern(&long_pattern, b"#"), refused_match(1));
    assert_eq!(match_pattern(b"", b""), refused_match(3));
    assert_eq!(
        match_pattern(b" ", &[b'#'; MOST_PATH + 1]),
        refused_match(3)
    );
    assert_eq!(match_pattern(b"x", b"#"), refused_match(4));
    assert_eq!(match_pattern(b"/#", b"/#"), refused_match(5));
    assert_eq!(match_pattern(b"/#", b"/x"), refused_match(8));
    assert_eq!(match_pattern(b"*", b""), refused_match(3));
    assert_eq!(match_pattern(b"*", b"*"), refused_match(4));
    assert_eq!(match_pattern(b"*#", b"/#"), refused_match(5));
    assert_eq!(match_pattern(b"*#", b"/x"), refused_match(8));
    assert_eq!(match_pattern(b"$", b"/x"), refused_match(8));
}

/// Normalises into a buffer filled with 0xA5 and gives it back.
fn normalised(path: &[u8], room: usize) -> (Normalised, Vec<u8>) {
    let mut buffer = vec![0xA5; room];
    let answer = normalise(path, &mut buffer);
    (answer, buffer)
}

/// "a refused normalising writes nothing and reports 0"
fn assert_refused_normalising(path: &[u8], room: usize, refusal: usize) {
    let (answer, buffer) = normalised(path, room);
    assert_eq!(
        answer,
        Normalised {
            refusal,
            written: 0
        }
    );
    assert!(buffer.iter().all(|octet| *octet == 0xA5));
}

#[test]
fn normalise_refusals_and_order() {
    assert_refused_normalising(b"", 0, 3);
    assert_refused_normalising(b"", 9, 3);
    assert_refused_normalising(&[b'#'; MOST_PATH + 1], 0, 3);
    assert_refused_normalising(&path_of(MOST_PATH + 1, b'x'), 9_000, 3);
    assert_refused_normalising(b"x#", 0, 4);
    assert_refused_normalising(b"x", 9, 4);
    assert_refused_normalising(b"/#", 0, 5);
    assert_refused_normalising(b"/\t", 9, 5);
    assert_refused_normalising(b"/", 0, 6);
    assert_refused_normalising(b"/*", 3, 6);
}

#[test]
fn normalise_room() {
    for octet in [b'%', b'*', b'$', 0x7F, 0xFF] {
        let path = path_of(MOST_PATH, octet);
        let (answer, buffer) = normalised(&path, MOST_NORMAL);
        assert_eq!(
            answer,
            Normalised {
                refusal: 0,
                written: MOST_NORMAL
            }
        );
        assert_eq!(buffer[0], b'/');
        let triple = format!("%{octet:02X}");
        assert!(buffer[1..].chunks(3).all(|part| part == triple.as_bytes()));
        assert_refused_normalising(&path, MOST_NORMAL - 1, 6);
    }
    let (answer, buffer) = normalised(b"/*", 6);
    assert_eq!((answer.refusal, answer.written), (0, 4));
    assert_eq!(buffer, b"/%2A\xA5\xA5");
    let (answer, buffer) = normalised(b"/*", 4);
    assert_eq!((answer.refusal, answer.written), (0, 4));
    assert_eq!(buffer, b"/%2A");
    // The normalised path may be shorter than the raw one.
    let (answer, buffer) = normalised(b"/%41", 2);
    assert_eq!((answer.refusal, answer.written), (0, 2));
    assert_eq!(buffer, b"/A");
    assert_refused_normalising(b"/%41", 1, 6);
}

#[test]
fn line_refusals_and_order() {
    let blank = LineKind {
        refusal: 0,
        kind: 1,
        place: 0,
        length: 0,
    };
    assert_eq!(line_kind(b""), blank);
    assert_eq!(line_kind(&vec![b' '; MOST_OCTETS]), blank);
    assert_eq!(line_kind(&vec![b' '; MOST_OCTETS + 1]), refused_line(1));
    assert_eq!(line_kind(&vec![b'\n'; MOST_OCTETS + 1]), refused_line(1));
    assert_eq!(line_kind(&vec![b'\n'; MOST_OCTETS]), refused_line(9));
    assert_eq!(line_kind(b"\r"), refused_line(9));
    assert_eq!(line_kind(b"allow: /\n"), refused_line(9));
    assert_eq!(line_kind(b"\rallow: /"), refused_line(9));
    // Even in a comment, which "isn't examined" for its kind.
    assert_eq!(line_kind(b"# \r"), refused_line(9));
    assert_eq!(line_kind(b"# \n"), refused_line(9));
}

#[test]
fn program_refusals_and_order() {
    // "a missing part is empty"
    assert_eq!(program(b""), b"refused 2\n");
    assert_eq!(program(b"\n/\n"), b"refused 2\n");
    assert_eq!(program(b"a"), b"refused 3\n");
    assert_eq!(program(b"a\n"), b"refused 3\n");
    assert_eq!(program(b"a\n\n"), b"refused 3\n");
    assert_eq!(program(b"a\nx"), b"refused 4\n");
    assert_eq!(program(b"a\n/#"), b"refused 5\n");
    // Only LF ends a part.
    assert_eq!(program(b"a\r\n/\n"), b"refused 2\n");
    assert_eq!(program(b"a\r/\r"), b"refused 2\n");
    assert_eq!(program(b"a\n/\r\n"), b"refused 5\n");
    assert_eq!(
        program(b"a\n/"),
        b"allow line 0 unread 0 compared 0\n".as_slice()
    );
    assert_eq!(
        program(b"a\n/\n"),
        b"allow line 0 unread 0 compared 0\n".as_slice()
    );
}

#[test]
fn program_length_of_the_input() {
    let mut input = b"a\n/\nuser-agent: a\ndisallow: /\n".to_vec();
    input.resize(MOST_INPUT, b'#');
    assert_eq!(program(&input), b"disallow line 2 unread 0 compared 1\n");
    input.push(b'#');
    assert_eq!(program(&input), b"refused 7\n");
    // 7 before all others.
    assert_eq!(program(&vec![b'\n'; MOST_INPUT + 1]), b"refused 7\n");
    assert_eq!(program(&vec![b'#'; MOST_OCTETS + 9]), b"refused 7\n");
    assert_eq!(program(&vec![b'#'; MOST_INPUT]), b"refused 2\n");
}
