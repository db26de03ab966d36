//! A list of paths in one call (document 02, M-101): what is answered, what is
//! refused, and in which order.

use evaluator::{DRAFT1996, RFC9309};
use generator::BatchCase;

use crate::batching::{check_answers, check_refused_batch, list_of};
use crate::texts::{MOST_FILE, MOST_NAME};

pub const BOTH: [usize; 2] = [RFC9309, DRAFT1996];

/// An allowed path that no rule decides.
pub const FREE: [usize; 3] = [0, 0, 0];

/// "A refused decision holds its number, disallow, and zeros."
pub fn refused(number: usize) -> [usize; 3] {
    [number, 1, 0]
}

const SAILINGS: &[u8] = b"user-agent: *\ndisallow: /sailings/draft\nallow: /sailings";

/// The octets as they are, with these ends.
fn with_ends(paths: &[u8], ends: &[usize]) -> BatchCase {
    BatchCase {
        paths: paths.to_vec(),
        ends: ends.to_vec(),
        lengths: [ends.len(); 3],
        ..list_of(RFC9309, SAILINGS, &[])
    }
}

/// "each what a single question gives, a path's own refusal included"
#[test]
fn each_path_has_its_own_answer() {
    let list: [(&str, [usize; 3]); 12] = [
        ("/sailings/draft/9", [0, 1, 2]),
        ("", refused(3)),
        ("/sailings/9", [0, 0, 3]),
        ("/s", FREE),
        ("sailings", refused(4)),
        ("/sailings/dr%61ft", [0, 1, 2]),
        ("/sailings /draft", refused(5)),
        ("/robots.txt", FREE),
        ("/%72obots.tx%74", FREE),
        ("/sailings#", refused(5)),
        ("/sailings", [0, 0, 3]),
        ("/sailings/draft", [0, 1, 2]),
    ];
    let paths = list.map(|(path, _)| path.as_bytes());
    let expected = list.map(|(_, numbers)| numbers);
    for dialect in BOTH {
        check_answers(&list_of(dialect, SAILINGS, &paths), &expected);
        let reversed: Vec<_> = paths.into_iter().rev().collect();
        let mut expected = expected;
        expected.reverse();
        check_answers(&list_of(dialect, SAILINGS, &reversed), &expected);
    }
}

/// The dialect is the whole list's, and so are file and name.
#[test]
fn the_dialects_answer_otherwise() {
    let file =
        b"user-agent: A/2\nallow: /p\ndisallow: /page\ndisallow: /q*$\nuser-agent: *\nallow: /";
    let list: [&[u8]; 5] = [b"/page", b"/p", b"/q", b"/q*$", b"/robots.txt"];
    let of_rfc = [[0, 1, 3], [0, 0, 2], [0, 1, 4], [0, 1, 4], FREE];
    let of_draft = [[0, 0, 2], [0, 0, 2], FREE, [0, 1, 4], FREE];
    check_answers(&list_of(RFC9309, file, &list), &of_rfc);
    check_answers(&list_of(DRAFT1996, file, &list), &of_draft);
    for dialect in BOTH {
        let everyone = BatchCase {
            name: b"b".to_vec(),
            ..list_of(dialect, file, &list)
        };
        let allow = [0, 0, 6];
        check_answers(&everyone, &[allow, allow, allow, allow, FREE]);
    }
}

/// No octet of the next path belongs to an escape: %41 is "A", and "any other
/// "%": %25".
#[test]
fn an_escape_ends_with_its_path() {
    let file = b"user-agent: *\ndisallow: /a\nallow: /aA\nallow: /a%25";
    let (whole, cut) = ([0, 0, 3], [0, 0, 4]);
    for (end, expected) in [
        (0, [refused(3), whole]),
        (1, [FREE, refused(4)]),
        (2, [[0, 1, 2], refused(4)]),
        (3, [cut, refused(4)]),
        (4, [cut, refused(4)]),
        (5, [whole, refused(3)]),
    ] {
        let mut case = with_ends(b"/a%41", &[end, 5]);
        case.file = file.to_vec();
        check_answers(&case, &expected);
    }
    let list: [&[u8]; 7] = [b"/a%4", b"1/b", b"/a%", b"41", b"/a%41", b"/a%", b""];
    let four = refused(4);
    let expected = [cut, four, cut, four, whole, cut, refused(3)];
    check_answers(&list_of(RFC9309, file, &list), &expected);
    // "the first match in file order decides"
    let first = [0, 1, 2];
    let expected = [first, four, first, four, first, first, refused(3)];
    check_answers(&list_of(DRAFT1996, file, &list), &expected);
}

/// What would change a path's answer stands in front of the next.
#[test]
fn a_path_ends_where_its_end_is() {
    let file = b"user-agent: *\ndisallow: /x$\nallow: /x/";
    let list: [&[u8]; 7] = [b"/x", b"/", b"/x/", b"/x", b"#", b"/x", b" "];
    let (shut, four) = ([0, 1, 2], refused(4));
    let expected = [shut, FREE, [0, 0, 3], shut, four, shut, four];
    check_answers(&list_of(RFC9309, file, &list), &expected);
    let file = b"user-agent: *\ndisallow: /";
    let list: [&[u8]; 6] = [
        b"/robots.txt",
        b"?x",
        b"/robots.tx",
        b"t",
        b"/",
        b"robots.txt",
    ];
    for dialect in BOTH {
        let expected = [FREE, four, shut, four, shut, four];
        check_answers(&list_of(dialect, file, &list), &expected);
    }
}

/// "12 if the ends ever decrease or the last isn't the joined length"
#[test]
fn ends_that_are_refused() {
    const MAX: usize = usize::MAX;
    let refused: [&[usize]; 22] = [
        &[],
        &[0],
        &[5],
        &[7],
        &[MAX],
        &[MAX - 5],
        &[6 + (1 << 32)],
        &[2, 4, 5],
        &[2, 4, 7],
        &[6, 0],
        &[6, 5],
        &[7, 6],
        &[0, MAX],
        &[MAX, 6],
        &[MAX, MAX],
        &[4, 2, 6],
        &[6, 2, 6],
        &[2, 7, 6],
        &[0, MAX, 6],
        &[MAX, 0, 6],
        &[2, 4, 6, 5, 6],
        &[1 << 63, 1 << 63, 6],
    ];
    for ends in refused {
        let mut case = with_ends(b"/a/b/c", ends);
        check_refused_batch(&case, 12);
        case.lengths = [9; 3];
        check_refused_batch(&case, 12);
    }
}

#[test]
fn ends_of_no_octets() {
    let max = usize::MAX;
    for ends in [
        [1].as_slice(),
        &[max],
        &[0, 1],
        &[1, 0],
        &[0, max],
        &[max, 0],
    ] {
        check_refused_batch(&with_ends(b"", ends), 12);
    }
}

/// Ends of the same octets that are no reason to refuse.
#[test]
fn ends_that_are_answered() {
    let three = refused(3);
    let answered: [(&[usize], &[[usize; 3]]); 8] = [
        (&[6], &[FREE]),
        (&[2, 4, 6], &[FREE; 3]),
        (&[0, 6], &[three, FREE]),
        (&[6, 6], &[FREE, three]),
        (&[0, 0, 6], &[three, three, FREE]),
        (&[2, 2, 6], &[FREE, three, FREE]),
        (&[1, 2, 6], &[FREE, refused(4), FREE]),
        (
            &[1, 2, 3, 4, 5, 6],
            &[FREE, refused(4), FREE, refused(4), FREE, refused(4)],
        ),
    ];
    for (ends, expected) in answered {
        check_answers(&with_ends(b"/a/b/c", ends), expected);
    }
}

/// "an empty list needs length 0", and no answer slice is shorter.
#[test]
fn an_empty_list() {
    for dialect in BOTH {
        let mut case = list_of(dialect, SAILINGS, &[]);
        check_answers(&case, &[]);
        case.paths = b"/".to_vec();
        check_refused_batch(&case, 12);
        case.name = Vec::new();
        check_refused_batch(&case, 2);
        case.file = vec![b'#'; MOST_FILE + 1];
        check_refused_batch(&case, 1);
        case.dialect += 2;
        check_refused_batch(&case, 20);
        // empty paths are a list
        let three = refused(3);
        check_answers(&list_of(dialect, SAILINGS, &[b""]), &[three]);
        check_answers(
            &list_of(dialect, SAILINGS, &[b"".as_slice(); 400]),
            &[three; 400],
        );
    }
}

/// "13 if an answer slice is shorter than the list"
#[test]
fn every_length_of_the_answers() {
    let list = list_of(RFC9309, SAILINGS, &[b"/sailings", b"/"]);
    for number in 0..125 {
        let lengths = [number / 25, number / 5 % 5, number % 5];
        let case = BatchCase {
            lengths,
            ..list.clone()
        };
        let is_short = lengths.iter().any(|length| *length < 2);
        check_refused_batch(&case, if is_short { 13 } else { 0 });
    }
    check_answers(&list, &[[0, 0, 3], FREE]);
}

/// Just inside and just outside of each other refusal of the call.
#[test]
fn each_limit() {
    let list = list_of(RFC9309, SAILINGS, &[b"/sailings"]);
    for dialect in [2, 3, 20, 256, 1 << 32, (1 << 32) + 1, 1 << 63, usize::MAX] {
        let unknown = BatchCase {
            dialect,
            ..list.clone()
        };
        check_refused_batch(&unknown, 20);
    }
    let mut case = list.clone();
    case.file.resize(MOST_FILE, b'\n');
    check_answers(&case, &[[0, 0, 3]]);
    case.file.push(b'\n');
    check_refused_batch(&case, 1);
    let mut case = list.clone();
    case.name.resize(MOST_NAME, b'x');
    check_answers(&case, &[[0, 0, 3]]);
    case.name.push(b'x');
    check_refused_batch(&case, 2);
    for name in ["", "*", "a9", "a ", "a/1", "\u{e9}"] {
        case.name = name.as_bytes().to_vec();
        check_refused_batch(&case, 2);
    }
}

/// Each set of the five reasons: the first of them is given. "20 for an unknown
/// dialect, first of all" (M-113), "1 and 2, then 12", "then 13".
#[test]
fn the_order_of_the_refusals() {
    let plain = list_of(RFC9309, SAILINGS, &[b"/", b"", b"/a"]);
    let order = [20, 1, 2, 12, 13];
    for reasons in 1..32 {
        let holds = [0, 1, 2, 3, 4].map(|at| reasons >> at & 1 == 1);
        let mut case = plain.clone();
        if holds[0] {
            case.dialect = 2;
        }
        if holds[1] {
            case.file = vec![b'#'; MOST_FILE + 1];
        }
        if holds[2] {
            case.name = b"9".to_vec();
        }
        if holds[3] {
            case.ends = vec![1, 0, 3];
        }
        if holds[4] {
            case.lengths = [3, 3, 2];
        }
        let mut reasons = order.into_iter().zip(holds);
        let first = reasons.find(|(_, holds)| *holds);
        check_refused_batch(&case, first.map_or(0, |(number, _)| number));
    }
}
