//! Every refusal of a decision, alone and with each of the others. "Each entry
//! tests the conditions that concern it, the smallest number first".

use evaluator::{Decision, DRAFT1996, RFC9309};

use crate::ask::exact;
use crate::deciding::{
    check_decide_in, check_no_rule, check_refused_decision, numbers_in, refused,
};
use crate::path_refusals::{paths, Inputs};
use crate::texts::{MOST_FILE, MOST_NAME};

/// "file [..] longer than 512,000 octets". None of the good ones has a rule or
/// an unreadable line.
fn files() -> Inputs {
    vec![
        (b"".to_vec(), None),
        (b"user-agent: *\nallow:".to_vec(), None),
        (vec![b'#'; MOST_FILE], None),
        (vec![b'#'; MOST_FILE + 1], Some(1)),
        (vec![b'\n'; MOST_FILE + 1], Some(1)),
        (vec![0xFF; 2 * MOST_FILE], Some(1)),
    ]
}

/// "name empty, over 64 octets, or with an octet other than A-Z a-z - _"
fn names() -> Inputs {
    vec![
        (b"a".to_vec(), None),
        (b"-_AZaz".to_vec(), None),
        (vec![b'x'; MOST_NAME], None),
        (vec![b'x'; MOST_NAME + 1], Some(2)),
        (vec![b'x'; MOST_FILE], Some(2)),
        (b"".to_vec(), Some(2)),
        (b"*".to_vec(), Some(2)),
        (b"a9".to_vec(), Some(2)),
        (b" a".to_vec(), Some(2)),
        (b"a\0".to_vec(), Some(2)),
        ("\u{e9}".as_bytes().to_vec(), Some(2)),
    ]
}

/// An answer by no rule, without unread lines and without a walk.
const NO_RULE: Decision = Decision {
    refusal: 0,
    disallow: false,
    line: 0,
    place: 0,
    length: 0,
    unread: 0,
    compared: 0,
};

/// Each file with each name and each path, in both dialects: the smallest number
/// is given, and without one there is an answer.
#[test]
fn the_smallest_number_first() {
    for dialect in [RFC9309, DRAFT1996] {
        check_smallest_number(dialect);
    }
}

fn check_smallest_number(dialect: usize) {
    let mut seen = [0; 6];
    for (file, of_file) in files() {
        for (name, of_name) in names() {
            for (path, of_path) in paths() {
                let refusals = of_file.into_iter().chain(of_name).chain(of_path);
                let refusal = refusals.min().unwrap_or(0);
                let expected = match refusal {
                    0 => NO_RULE,
                    _ => refused(refusal),
                };
                seen[refusal] += 1;
                let answer = check_decide_in(dialect, &file, &name, &path);
                assert_eq!(answer, expected, "{dialect}: {name:?} {path:?}");
            }
        }
    }
    // 3 good files of 6, 3 good names of 11, and of 22 paths 4 good ones and 5,
    // 8 and 5 for their numbers
    let good = 3 * 3;
    let expected = [
        good * 4,
        3 * 11 * 22,
        3 * 8 * 22,
        good * 5,
        good * 8,
        good * 5,
    ];
    assert_eq!(seen, expected, "answered, and each number");
}

/// "A refused decision holds its number, disallow, and zeros", whatever the
/// file would say.
#[test]
fn a_refused_decision_holds_zeros() {
    let file = b"user-agent: ?\ndisallow: x\nuser-agent: *\nallow: /\n";
    check_refused_decision(file, b"9", b"/a", 2);
    check_refused_decision(file, b"a", b"", 3);
    check_refused_decision(file, b"a", b"a/", 4);
    check_refused_decision(file, b"a", b"/a ", 5);
    let long = [file.as_slice(), &vec![b'#'; MOST_FILE]].concat();
    check_refused_decision(&long, b"a", b"/a", 1);
    check_refused_decision(&long, b"a", b"/robots.txt", 1);
}

/// Every octet as a name, and at both ends of one.
#[test]
fn every_octet_of_a_name() {
    for octet in 0..=255u8 {
        for name in [vec![octet], vec![b'a', octet], vec![octet, b'Z']] {
            if octet.is_ascii_alphabetic() || b"-_".contains(&octet) {
                check_no_rule(b"", &name, b"/", 0, 0);
            } else {
                check_refused_decision(b"", &name, b"/", 2);
            }
        }
    }
}

/// Every octet as the first of a path, and behind it.
#[test]
fn every_octet_of_a_path() {
    for octet in 0..=255u8 {
        for path in [vec![octet], vec![octet, b'/']] {
            match octet {
                b'/' => check_no_rule(b"", b"a", &path, 0, 0),
                _ => check_refused_decision(b"", b"a", &path, 4),
            }
        }
        for path in [vec![b'/', octet], vec![b'/', octet, b'x']] {
            match octet {
                0..=0x20 | b'#' => check_refused_decision(b"", b"a", &path, 5),
                _ => check_no_rule(b"", b"a", &path, 0, 0),
            }
        }
    }
}

/// Neither 0 nor 1, in however many of their bits they look like them.
const UNKNOWN: [u64; 14] = [
    2,
    3,
    4,
    20,
    255,
    256,
    257,
    1 << 16,
    (1 << 16) + 1,
    1 << 32,
    (1 << 32) + 1,
    1 << 63,
    (1 << 63) + 1,
    u64::MAX,
];

/// "Refusals: 20 for an unknown dialect, first of all." (M-113) It is given
/// where no other holds, and where each of the others does.
#[test]
fn an_unknown_dialect_first_of_all() {
    let mut asked = 0;
    let expected = refused(20);
    for dialect in UNKNOWN {
        let dialect = usize::try_from(dialect).expect("a usize of 64 bits");
        for (file, _) in files() {
            let file = exact(&file);
            for (name, _) in names() {
                for (path, _) in paths() {
                    let answer = numbers_in(dialect, &file, &exact(&name), &exact(&path));
                    assert_eq!(answer, expected, "{dialect}: {name:?} {path:?}");
                    asked += 1;
                }
            }
        }
    }
    assert_eq!(asked, 14 * 6 * 11 * 22);
}

/// Unknown dialects are refused whatever the file says.
#[test]
fn an_unknown_dialect_opens_nothing() {
    for case in generator::draft_decide_cases(generator::SEED, 2_000) {
        for dialect in UNKNOWN {
            let dialect = usize::try_from(dialect).expect("a usize of 64 bits");
            let answer = check_decide_in(dialect, &case.file, &case.name, &case.path);
            assert_eq!(answer, refused(20), "{dialect}: {case:?}");
        }
    }
}
