//! Just inside and just outside every limit, and memory around what is lent.

use evaluator::LineKind;

use crate::ask::{self, check_line, check_path, check_room, filling, shown};
use crate::texts::{lengthened, slash_and, surrounded, MOST_LINE, MOST_NORMALISED, MOST_PATH};

fn told(refusal: usize, kind: usize, place: usize, length: usize) -> LineKind {
    LineKind {
        refusal,
        kind,
        place,
        length,
    }
}

/// "file, pattern or line longer than 512,000 octets"
#[test]
fn the_longest_line() {
    for (beginning, octet, expected) in [
        ("allow:/", b'a', told(0, 7, 6, MOST_LINE - 6)),
        ("disallow:/", b'%', told(0, 10, 9, MOST_LINE - 9)),
        ("disallow:", b'*', told(0, 10, 9, MOST_LINE - 9)),
        ("disallow:$", b'*', told(0, 11, 9, MOST_LINE - 9)),
        ("disallow:/", 0xC3, told(0, 11, 9, MOST_LINE - 9)),
        ("user-agent:", b'a', told(0, 4, 11, MOST_LINE - 11)),
        ("user-agent:a", b'9', told(0, 4, 11, MOST_LINE - 11)),
        ("user-agent:a/", b'a', told(0, 4, 11, MOST_LINE - 11)),
        ("user-agent:a", 0xFF, told(0, 4, 11, MOST_LINE - 11)),
        ("user-agent:", b'*', told(0, 5, 11, MOST_LINE - 11)),
        ("user-agent:*", b'a', told(0, 5, 11, MOST_LINE - 11)),
        ("user-agent:9", b'a', told(0, 5, 11, MOST_LINE - 11)),
        ("user-agent:*", b' ', told(0, 4, 11, 1)),
        ("allow:/x", b' ', told(0, 7, 6, 2)),
        ("allow:/x#", b'/', told(0, 7, 6, 2)),
        ("", b' ', told(0, 1, 0, 0)),
        ("", b'a', told(0, 2, 0, 0)),
        ("", b':', told(0, 3, 0, 0)),
        ("", b'\n', told(9, 0, 0, 0)),
        ("allow:/x#", b'\r', told(9, 0, 0, 0)),
    ] {
        let line = lengthened(beginning.as_bytes(), &[octet], b"", MOST_LINE);
        assert_eq!(check_line(&line), expected, "{beginning} and {octet:#04X}");
        let line = lengthened(beginning.as_bytes(), &[octet], b"", MOST_LINE + 1);
        let refused = told(1, 0, 0, 0);
        assert_eq!(check_line(&line), refused, "{beginning} and {octet:#04X}");
    }
}

/// What decides stands at the very end of the longest line.
#[test]
fn the_last_octet_of_the_longest_line() {
    for beginning in [
        "",
        "x",
        "allow:/",
        "allow:*",
        "user-agent:a",
        "user-agent:a/",
        "user-agent:*",
        "allow:/#",
    ] {
        let octet = if beginning.is_empty() { b' ' } else { b'a' };
        let mut line = lengthened(beginning.as_bytes(), &[octet], b"", MOST_LINE);
        for last in *b"\r\n#: \t\xC3\x80\x7Fa" {
            line[MOST_LINE - 1] = last;
            check_line(&line);
        }
    }
}

/// "path empty or over 2,048 octets"
#[test]
fn the_longest_path() {
    for octet in *b"a%*$\xFF/" {
        let path = slash_and(octet, MOST_PATH);
        check_path(&path);
        assert_eq!(check_room(&path, MOST_NORMALISED), 0, "{}", shown(&path));
        let path = slash_and(octet, MOST_PATH + 1);
        check_path(&path);
        for room in [0, MOST_NORMALISED, 3 * MOST_NORMALISED] {
            assert_eq!(check_room(&path, room), 3, "{}", shown(&path));
        }
    }
}

/// "a 2,048-octet path (at most 6,142 normalised), a buffer of exactly the
/// normalised length. One more octet, or one less of buffer, is refused."
#[test]
fn the_longest_normalised_path() {
    let path = slash_and(b'%', MOST_PATH);
    let answer = ask::normalise(&path, MOST_NORMALISED);
    let expected = [b"/".as_slice(), &b"%25".repeat(MOST_PATH - 1)].concat();
    assert_eq!(expected.len(), MOST_NORMALISED, "{}", shown(&path));
    assert!(answer.octets == expected, "{}", shown(&answer.octets));
    for (room, refusal) in [(MOST_NORMALISED - 1, 6), (MOST_NORMALISED + 1, 0)] {
        let found = check_room(&path, room);
        assert_eq!(found, refusal, "{} with room {room}", shown(&path));
    }
}

/// The refusal's room is a number without memory behind it.
#[test]
fn any_number_as_room() {
    for room in [usize::MAX, usize::MAX / 2, usize::MAX / 3, 1 << 32] {
        for (path, expected) in [("/a", 0), ("/%", 0), ("", 3), ("a", 4), ("/ ", 5)] {
            let refusal = library::normalise_refusal(path.as_bytes(), room);
            assert_eq!(refusal, expected, "{path} with room {room}");
        }
        let path = slash_and(b'%', MOST_PATH);
        assert_eq!(library::normalise_refusal(&path, room), 0, "room {room}");
    }
}

/// A buffer inside larger memory, from every place of a word: what lies
/// before and behind it stays.
#[test]
fn memory_around_the_buffer_stays() {
    for path in ["/", "/a%41%zz*", "/b\u{e9}", "", "a", "/ "] {
        for start in 0..16 {
            for room in 0..24 {
                let mut memory = filling(64);
                let written = library::normalise(path.as_bytes(), &mut memory[start..start + room]);
                let mut expected = filling(64);
                let front = ask::normalise(path.as_bytes(), room).octets;
                expected[start..start + front.len()].copy_from_slice(&front);
                assert_eq!(written, front.len(), "{path} into {room} at {start}");
                assert_eq!(memory, expected, "{path} into {room} at {start}");
            }
        }
    }
}

/// What could be taken for a part of a line or a path, before and behind it.
const NEIGHBOURS: [(&str, &str); 5] = [("", ""), ("#", "#"), ("%", "41"), ("\n", "\n"), (":", ":")];

/// A line inside larger memory, from every place of a word: what lies before
/// and behind it isn't seen.
#[test]
fn memory_around_the_line_is_unseen() {
    for (before, after) in NEIGHBOURS {
        for start in before.len()..16 {
            for line in [
                "",
                "x",
                "allow:/x",
                "allow:*",
                "user-agent:bot",
                "user-agent:bot/",
                "user-agent:*",
                "disallow:/%",
                " ",
            ] {
                let memory = surrounded(line, before, after, start);
                let inside = &memory[start..start + line.len()];
                let answer = told(
                    library::line_refusal(inside),
                    library::line_kind(inside),
                    library::line_place(inside),
                    library::line_length(inside),
                );
                let alone = evaluator::line_kind(line.as_bytes());
                assert_eq!(answer, alone, "{line} at {start} of {}", shown(&memory));
            }
        }
    }
}

/// The same for a path.
#[test]
fn memory_around_the_path_is_unseen() {
    for (before, after) in NEIGHBOURS {
        for start in before.len()..16 {
            for path in ["", "/", "/%", "/%4", "/a%"] {
                let memory = surrounded(path, before, after, start);
                let inside = &memory[start..start + path.len()];
                let mut buffer = filling(16);
                let mut expected = filling(16);
                let written = library::normalise(inside, &mut buffer);
                let alone = evaluator::normalise(path.as_bytes(), &mut expected);
                let refusal = library::normalise_refusal(inside, 16);
                let message = format!("{path} at {start} of {}", shown(&memory));
                assert_eq!(refusal, alone.refusal, "{message}");
                assert_eq!(written, alone.written, "{message}");
                assert_eq!(buffer, expected, "{message}");
            }
        }
    }
}
