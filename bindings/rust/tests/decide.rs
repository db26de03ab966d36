//! Document 01's example, M-102's, both dialects and refusals, asked through the
//! binding.

use robots::{Decision, Dialect, Refusal};

const FILE: &[u8] = b"user-agent: *\ndisallow: /sailings/draft\nallow: /sailings\n";
const PATH: &[u8] = b"/sailings/draft/9";

/// The seven numbers of a decision, in document 01's order.
fn numbers(dialect: usize, name: &[u8]) -> [usize; 7] {
    [
        robots::decide_refusal(dialect, FILE, name, PATH),
        robots::decide_disallow(dialect, FILE, name, PATH),
        robots::decide_line(dialect, FILE, name, PATH),
        robots::decide_place(dialect, FILE, name, PATH),
        robots::decide_length(dialect, FILE, name, PATH),
        robots::decide_unread(dialect, FILE, name, PATH),
        robots::decide_compared(dialect, FILE, name, PATH),
    ]
}

#[test]
fn document_01s_example() {
    let expected = Decision {
        disallow: true,
        line: 2,
        place: 24,
        length: 15,
        unread: 0,
        compared: 24,
    };
    assert_eq!(robots::decide(FILE, b"drydockbot", PATH), Ok(expected));
    assert_eq!(numbers(0, b"drydockbot"), [0, 1, 2, 24, 15, 0, 24]);
    assert_eq!(&FILE[24..24 + 15], b"/sailings/draft");
}

#[test]
fn m_102s_example() {
    let file = b"user-agent: *\ndisallow: *.gif$";
    let expected = Decision {
        disallow: true,
        line: 2,
        place: 24,
        length: 6,
        unread: 0,
        compared: 4,
    };
    assert_eq!(robots::decide(file, b"a", b"/x.gif"), Ok(expected));
}

#[test]
fn m_105s_example() {
    let file = b"user-agent: DrydockBot/2.1\ndisallow: /draft";
    let expected = Decision {
        disallow: true,
        line: 2,
        place: 37,
        length: 6,
        unread: 0,
        compared: 6,
    };
    assert_eq!(
        robots::decide(file, b"drydockbot", b"/draft/9"),
        Ok(expected)
    );
    assert_eq!(robots::decide_disallow(0, file, b"Drydock", b"/draft/9"), 0);
}

/// "A refused decision holds its number, disallow, and zeros."
#[test]
fn a_name_with_a_space_is_refused() {
    assert_eq!(robots::decide(FILE, b"no name", PATH), Err(Refusal::Name));
    assert_eq!(numbers(0, b"no name"), [2, 1, 0, 0, 0, 0, 0]);
}

/// "the first match in file order decides" (M-113): a broad allow ahead of a
/// narrow disallow, in the draft's dialect and in the RFC's.
#[test]
fn the_dialect_decides() {
    let file = b"user-agent: *\nallow: /sailings\ndisallow: /sailings/draft\n";
    let of_draft = Decision {
        disallow: false,
        line: 2,
        place: 21,
        length: 9,
        unread: 0,
        compared: 9,
    };
    let of_rfc = Decision {
        disallow: true,
        line: 3,
        place: 41,
        length: 15,
        unread: 0,
        compared: 24,
    };
    let decide_in = |dialect| robots::decide_in(dialect, file, b"a", PATH);
    assert_eq!(decide_in(Dialect::Draft1996), Ok(of_draft));
    assert_eq!(decide_in(Dialect::Rfc9309), Ok(of_rfc));
    assert_eq!(robots::decide(file, b"a", PATH), Ok(of_rfc));
    assert_eq!(Dialect::default(), Dialect::Rfc9309);
    // where the draft's first match is the heaviest: its count ends there
    assert_eq!(numbers(1, b"drydockbot"), [0, 1, 2, 24, 15, 0, 15]);
}

/// "Refusals: 20 for an unknown dialect, first of all."
#[test]
fn an_unknown_dialect_is_refused() {
    for dialect in [2, 255, 256, 1 << 16, 1 << 32, (1 << 32) + 1, usize::MAX] {
        for name in [b"drydockbot".as_slice(), b"no name"] {
            assert_eq!(numbers(dialect, name), [20, 1, 0, 0, 0, 0, 0], "{dialect}");
        }
    }
}

#[test]
fn refusals_have_their_numbers() {
    for number in (1..=9).chain([12, 13, 20]) {
        let refusal = Refusal::from_number(number).expect("a row of the table");
        assert_eq!(refusal as usize, number);
        assert_eq!(refusal.to_string(), format!("refused {number}"));
    }
    for number in [0, 10, 11, 14, 19, 21, usize::MAX] {
        assert_eq!(Refusal::from_number(number), None, "{number}");
    }
}
