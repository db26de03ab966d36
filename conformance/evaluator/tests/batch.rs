//! A list of paths in one call (document 02, M-101): every refusal and their
//! order, where each path ends, and what is written.

use evaluator::{batch, DRAFT1996, RFC9309};

const MOST_OCTETS: usize = 512_000;
const MOST_NAME: usize = 64;
const MOST_PATH: usize = 2_048;

/// What a place holds before the call; no answer is as large, and no two places
/// are alike.
fn before(slice: usize, place: usize) -> usize {
    1_000_000 * (slice + 1) + place
}

/// The three slices before the call.
fn lent(lengths: [usize; 3]) -> [Vec<usize>; 3] {
    [0, 1, 2].map(|slice| {
        let places = 0..lengths[slice];
        places.map(|place| before(slice, place)).collect()
    })
}

/// A question about a list: dialect, file, name, joined paths and ends.
type Question<'a> = (usize, &'a [u8], &'a [u8], &'a [u8], &'a [usize]);

/// Asks with slices of these lengths; gives the refusal and the slices.
fn asked(question: Question, lengths: [usize; 3]) -> (usize, [Vec<usize>; 3]) {
    let (dialect, file, name, paths, ends) = question;
    let mut slices = lent(lengths);
    let answers = slices.each_mut().map(Vec::as_mut_slice);
    let refusal = batch(dialect, file, name, paths, ends, answers);
    (refusal, slices)
}

/// The call is refused with this number, and nothing is written.
fn check_refused(question: Question, lengths: [usize; 3], refusal: usize) {
    let ends = question.4;
    let expected = (refusal, lent(lengths));
    assert_eq!(asked(question, lengths), expected, "ends {ends:?}");
}

/// Each path has these three numbers, with slices of just its length and with
/// longer ones, whose further places stay.
fn check_answers(question: Question, expected: &[[usize; 3]]) {
    let count = question.4.len();
    assert_eq!(count, expected.len(), "one answer a path");
    for more in [[0, 0, 0], [1, 0, 3], [0, 2, 0], [5, 5, 5]] {
        let lengths = more.map(|more| count + more);
        let mut slices = lent(lengths);
        for (place, numbers) in expected.iter().enumerate() {
            (0..3).for_each(|slice| slices[slice][place] = numbers[slice]);
        }
        let paths = question.3.escape_ascii();
        assert_eq!(asked(question, lengths), (0, slices), "{paths}");
    }
}

/// The paths joined, and their ends.
fn joined(paths: &[&[u8]]) -> (Vec<u8>, Vec<usize>) {
    let mut ends = Vec::new();
    let mut octets = Vec::new();
    for path in paths {
        octets.extend(*path);
        ends.push(octets.len());
    }
    (octets, ends)
}

/// An allowed path that no rule decides.
const FREE: [usize; 3] = [0, 0, 0];

/// "A refused decision holds its number, disallow, and zeros."
fn refused(number: usize) -> [usize; 3] {
    [number, 1, 0]
}

const SAILINGS: &[u8] = b"user-agent: *\ndisallow: /sailings/draft\nallow: /sailings";

/// "each what a single question gives, a path's own refusal included"
#[test]
fn each_path_has_its_own_answer() {
    let (paths, ends) = joined(&[
        b"/sailings/draft/9",
        b"/sailings/9",
        b"",
        b"/sailings/draft",
        b"/",
        b"sailings",
        b"/sailings/dr%61ft",
        b"/sailings /draft",
        b"/robots.txt",
        b"/%72obots.txt",
        b"/sailings/9",
    ]);
    let expected = [
        [0, 1, 2],
        [0, 0, 3],
        refused(3),
        [0, 1, 2],
        FREE,
        refused(4),
        [0, 1, 2],
        refused(5),
        FREE,
        FREE,
        [0, 0, 3],
    ];
    check_answers((RFC9309, SAILINGS, b"a", &paths, &ends), &expected);
    // "the first match in file order decides" (M-113): the same here
    check_answers((DRAFT1996, SAILINGS, b"a", &paths, &ends), &expected);
}

/// The rows of document 01's table, and of M-102, each a list of one path.
#[test]
fn the_harbour_table() {
    let folder = "user-agent: *|disallow: /folder|allow: /folder";
    let page = "user-agent: *|allow: /page|disallow: /*.htm";
    let joins = "user-agent: a|sitemap: x|user-agent: b|disallow: /";
    let parted = "user-agent: a|disallow: x|user-agent: b|disallow: /";
    for (file, name, path, side, line) in [
        ("", "a", "/", 0, 0),
        ("user-agent: a|disallow: /", "A", "/x", 1, 2),
        ("user-agent: a|disallow: /", "a", "/%72obots.txt", 0, 0),
        ("user-agent: a|disallow: /", "b", "/x", 0, 0),
        ("user-agent: *|allow: /p|disallow: /", "a", "/page", 0, 2),
        (folder, "a", "/folder/page", 0, 3),
        (page, "a", "/page.htm", 1, 3),
        (
            "user-agent: *|disallow: /*.php$",
            "a",
            "/filename.php5",
            0,
            0,
        ),
        (
            "user-agent: *|disallow: /path/foo-%24",
            "a",
            "/path/foo-$",
            1,
            2,
        ),
        (joins, "a", "/", 1, 4),
        (parted, "a", "/", 0, 0),
        ("user-agent: *|disallow: *.gif$", "a", "/x.gif", 1, 2),
    ] {
        let file = file.replace('|', "\n");
        let (name, path) = (name.as_bytes(), path.as_bytes());
        let ends = [path.len()];
        let question = (RFC9309, file.as_bytes(), name, path, ends.as_slice());
        check_answers(question, &[[0, side, line]]);
    }
}

/// The dialect is the whole list's.
#[test]
fn the_dialects_answer_otherwise() {
    let file = b"user-agent: a\nallow: /p\ndisallow: /page\ndisallow: /q*$\n";
    let (paths, ends) = joined(&[b"/page", b"/p", b"/q", b"/q*$"]);
    let of_rfc = [[0, 1, 3], [0, 0, 2], [0, 1, 4], [0, 1, 4]];
    check_answers((RFC9309, file, b"A", &paths, &ends), &of_rfc);
    let of_draft = [[0, 0, 2], [0, 0, 2], FREE, [0, 1, 4]];
    check_answers((DRAFT1996, file, b"A", &paths, &ends), &of_draft);
}

/// "%" and two hex digits of one path: the digits of the next aren't its own.
#[test]
fn an_escape_ends_with_its_path() {
    // %41 is "A", and "any other "%": %25"
    let file = b"user-agent: *\ndisallow: /a\nallow: /aA";
    let cut = [0, 1, 2];
    let whole = [0, 0, 3];
    for (end, expected) in [
        (0, [refused(3), whole]),
        (1, [FREE, refused(4)]),
        (2, [cut, refused(4)]),
        (3, [cut, refused(4)]),
        (4, [cut, refused(4)]),
        (5, [whole, refused(3)]),
    ] {
        let ends = [end, 5];
        check_answers((RFC9309, file, b"a", b"/a%41", &ends), &expected);
    }
    let (paths, ends) = joined(&[b"/a%4", b"1/b", b"/a%", b"41", b"/a%41"]);
    let expected = [cut, refused(4), cut, refused(4), whole];
    check_answers((RFC9309, file, b"a", &paths, &ends), &expected);
}

/// What would change the answer stands at the beginning of the next path.
#[test]
fn a_path_ends_where_its_end_is() {
    let file = b"user-agent: *\ndisallow: /x$\nallow: /x/";
    let (paths, ends) = joined(&[b"/x", b"/", b"/x/", b"/x", b"#", b"/x", b" "]);
    let shut = [0, 1, 2];
    let four = refused(4);
    let expected = [shut, FREE, [0, 0, 3], shut, four, shut, four];
    check_answers((RFC9309, file, b"a", &paths, &ends), &expected);
    let robots = b"user-agent: *\ndisallow: /";
    let (paths, ends) = joined(&[b"/robots.txt", b"?x", b"/robots.tx", b"t", b"/robots.txt"]);
    let expected = [FREE, four, shut, four, FREE];
    check_answers((RFC9309, robots, b"a", &paths, &ends), &expected);
}

/// "12 if the ends ever decrease or the last isn't the joined length"
#[test]
fn ends_that_are_refused() {
    const MAX: usize = usize::MAX;
    let refused: [&[usize]; 25] = [
        &[],
        &[0],
        &[5],
        &[7],
        &[MAX],
        &[MAX - 5],
        &[1, 2, 3],
        &[2, 4, 5],
        &[2, 4, 7],
        &[6, 0],
        &[6, 5],
        &[7, 6],
        &[0, 0],
        &[0, MAX],
        &[MAX, 6],
        &[MAX, MAX],
        &[4, 2, 6],
        &[2, 1, 6],
        &[2, 6, 5],
        &[6, 2, 6],
        &[2, 7, 6],
        &[0, MAX, 6],
        &[MAX, 0, 6],
        &[2, 4, 6, 5, 6],
        &[2, 4, 6, 0],
    ];
    for ends in refused {
        check_refused((RFC9309, b"", b"a", b"/a/b/c", ends), [9; 3], 12);
    }
}

/// Ends of the same joined octets that are no reason to refuse.
#[test]
fn ends_that_are_answered() {
    let accepted: [(&[usize], &[[usize; 3]]); 7] = [
        (&[6], &[FREE]),
        (&[2, 4, 6], &[FREE, FREE, FREE]),
        (&[0, 6], &[refused(3), FREE]),
        (&[6, 6], &[FREE, refused(3)]),
        (&[0, 0, 6], &[refused(3), refused(3), FREE]),
        (&[2, 2, 6], &[FREE, refused(3), FREE]),
        (&[1, 2, 6], &[FREE, refused(4), FREE]),
    ];
    for (ends, expected) in accepted {
        check_answers((RFC9309, b"", b"a", b"/a/b/c", ends), expected);
    }
}

/// "an empty list needs length 0"
#[test]
fn an_empty_list() {
    for dialect in [RFC9309, DRAFT1996] {
        check_answers((dialect, SAILINGS, b"a", b"", &[]), &[]);
        check_refused((dialect, SAILINGS, b"a", b"/", &[]), [0; 3], 12);
    }
    // no answer slice is shorter
    check_refused((2, b"", b"a", b"", &[]), [0; 3], 20);
    check_refused((0, b"", b"", b"", &[]), [0; 3], 2);
    let long = vec![b'#'; MOST_OCTETS + 1];
    check_refused((0, &long, b"a", b"", &[]), [0; 3], 1);
    // empty paths are a list, and each is refused for itself
    check_answers((0, b"", b"a", b"", &[0]), &[refused(3)]);
    check_answers((0, b"", b"a", b"", &[0, 0, 0]), &[refused(3); 3]);
    for ends in [[1].as_slice(), &[usize::MAX], &[0, 1], &[1, 0]] {
        check_refused((0, b"", b"a", b"", ends), [4; 3], 12);
    }
}

/// "13 if an answer slice is shorter than the list"
#[test]
fn every_length_of_the_answers() {
    let question: Question = (RFC9309, b"", b"a", b"/a/b", &[2, 4]);
    for case in 0..125 {
        let lengths = [case / 25, case / 5 % 5, case % 5];
        if lengths.iter().any(|length| *length < 2) {
            check_refused(question, lengths, 13);
            continue;
        }
        let mut expected = lent(lengths);
        for slice in &mut expected {
            slice[..2].fill(0);
        }
        assert_eq!(asked(question, lengths), (0, expected), "{lengths:?}");
    }
}

/// Just inside and just outside of each other refusal of the call.
#[test]
fn each_limit() {
    let ends = [2];
    for dialect in [2, 3, 20, 256, 1 << 32, usize::MAX] {
        check_refused((dialect, b"", b"a", b"/a", &ends), [1; 3], 20);
    }
    let mut file = vec![b'#'; MOST_OCTETS];
    check_answers((RFC9309, &file, b"a", b"/a", &ends), &[FREE]);
    file.push(b'#');
    check_refused((RFC9309, &file, b"a", b"/a", &ends), [1; 3], 1);
    let name = [b'a'; MOST_NAME + 1];
    check_refused((RFC9309, b"", &name, b"/a", &ends), [1; 3], 2);
    check_answers((RFC9309, b"", &name[1..], b"/a", &ends), &[FREE]);
    for name in ["", "*", "a9", "a ", "a/1", "\u{e9}"] {
        check_refused((RFC9309, b"", name.as_bytes(), b"/a", &ends), [1; 3], 2);
    }
}

/// Each set of the five reasons: the first of them is given, and nothing is
/// written. "20 for an unknown dialect, first of all" (M-113), "1 and 2, then
/// 12", "then 13".
#[test]
fn the_order_of_the_refusals() {
    let long = vec![b'#'; MOST_OCTETS + 1];
    let order = [20, 1, 2, 12, 13];
    for reasons in 1..32_usize {
        let holds = [0, 1, 2, 3, 4].map(|at| reasons >> at & 1 == 1);
        let dialect = if holds[0] { 2 } else { RFC9309 };
        let file: &[u8] = if holds[1] { &long } else { SAILINGS };
        let name: &[u8] = if holds[2] { b"9" } else { b"a" };
        let ends: &[usize] = if holds[3] { &[2, 1, 4] } else { &[1, 2, 4] };
        let lengths = if holds[4] { [3, 2, 3] } else { [3, 3, 3] };
        let first = order.into_iter().zip(holds).find(|(_, holds)| *holds);
        let refusal = first.map_or(0, |(number, _)| number);
        check_refused((dialect, file, name, b"//a/", ends), lengths, refusal);
    }
}

/// A path's own refusals come behind all of the call's, and end no list.
#[test]
fn refused_paths_refuse_no_call() {
    let (paths, ends) = joined(&[b"", b"a", b"/ "]);
    let expected = [refused(3), refused(4), refused(5)];
    check_answers((RFC9309, SAILINGS, b"a", &paths, &ends), &expected);
    check_refused((RFC9309, SAILINGS, b"a", &paths, &ends), [2, 3, 3], 13);
    check_refused((RFC9309, SAILINGS, b"a", &paths, &[0, 1, 2]), [3; 3], 12);
    check_refused((RFC9309, SAILINGS, b"", &paths, &ends), [3; 3], 2);
    check_refused((9, SAILINGS, b"a", &paths, &ends), [3; 3], 20);
}

/// The joined paths may be longer than a file may be, and so may one of them:
/// "path empty or over 2,048 octets" is its own refusal.
#[test]
fn long_paths_and_long_lists() {
    let file = b"user-agent: *\ndisallow: /";
    let longest = [b"/".as_slice(), &[b'a'; MOST_PATH - 1]].concat();
    let list = vec![longest.as_slice(); 300];
    let (paths, ends) = joined(&list);
    assert!(paths.len() > MOST_OCTETS);
    check_answers((RFC9309, file, b"a", &paths, &ends), &[[0, 1, 2]; 300]);
    let over = [longest.as_slice(), b"a"].concat();
    let far_over = vec![b'/'; MOST_OCTETS + 1];
    let (paths, ends) = joined(&[b"/a", &over, &longest, &far_over, b"/a"]);
    let shut = [0, 1, 2];
    let expected = [shut, refused(3), shut, refused(3), shut];
    check_answers((RFC9309, file, b"a", &paths, &ends), &expected);
}
