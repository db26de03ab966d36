//! Calls for a list that are refused, and write nothing.

use evaluator::{DRAFT1996, RFC9309};

use crate::lists::{ask, check_list, unwritten};
use crate::texts::{MOST_FILE, MOST_NAME};

const FILE: &[u8] = b"user-agent: *\ndisallow: /";

/// The call is refused with this number, in both dialects.
fn check_refused(parts: [&[u8]; 3], ends: &[usize], lengths: [usize; 3], refusal: usize) {
    for dialect in [RFC9309, DRAFT1996] {
        let answer = ask(dialect, parts, ends, lengths);
        assert_eq!(answer, (refusal, unwritten(lengths)), "{ends:?}");
    }
}

/// "12 if the ends ever decrease or the last isn't the joined length (an empty
/// list needs length 0)"
#[test]
fn ends_that_are_none() {
    let most = usize::MAX;
    let lists: [(&[u8], &[usize]); 12] = [
        (b"/", &[]),
        (b"", &[1]),
        (b"/a/b", &[3]),
        (b"/a/b", &[5]),
        (b"/a/b", &[2, 1, 4]),
        (b"/a/b", &[4, 3]),
        (b"/a/b", &[2, 2, 1]),
        (b"/a/b", &[2, 3]),
        (b"/a/b", &[most]),
        (b"/a/b", &[2, most, 4]),
        (b"/a/b", &[most, 4]),
        (b"", &[0, 0, most]),
    ];
    for (paths, ends) in lists {
        check_refused([FILE, b"a", paths], ends, [3; 3], 12);
        // and no slice is looked at before
        check_refused([FILE, b"a", paths], ends, [0; 3], 12);
    }
}

/// "13 if an answer slice is shorter than the list"
#[test]
fn short_answers() {
    for lengths in [[1, 2, 2], [2, 1, 2], [2, 2, 1], [0, 0, 0], [0, 9, 9]] {
        check_refused([FILE, b"a", b"/a/b"], &[2, 4], lengths, 13);
    }
}

/// An empty list is answered, whatever the slices.
#[test]
fn an_empty_list() {
    for lengths in [[0; 3], [1; 3], [0, 1, 2]] {
        check_refused([FILE, b"a", b""], &[], lengths, 0);
        check_refused([FILE, b"", b""], &[], lengths, 2);
    }
    check_list(RFC9309, FILE, b"a", &[]);
}

/// "Refusals: 1 and 2, then 12 [..], then 13", and M-113's 20 "first of all"
#[test]
fn the_first_refusal_is_given() {
    let long = vec![b'\n'; MOST_FILE + 1];
    let names: [&[u8]; 3] = [b"", b"a b", &[b'a'; MOST_NAME + 1]];
    for name in names {
        check_refused([&long, name, b"/"], &[2], [0; 3], 1);
        check_refused([FILE, name, b"/"], &[2], [0; 3], 2);
        check_refused([FILE, name, b"/"], &[1], [1; 3], 2);
        for dialect in [2, usize::MAX] {
            let answer = ask(dialect, [&long, name, b"/"], &[2], [0; 3]);
            assert_eq!(answer, (20, unwritten([0; 3])));
            let answer = ask(dialect, [FILE, b"a", b"/"], &[1], [1; 3]);
            assert_eq!(answer, (20, unwritten([1; 3])));
        }
    }
    check_refused([&long, b"a", b"/"], &[1], [1; 3], 1);
    check_list(DRAFT1996, &long[1..], b"a", &[b"/"]);
}
