//! M-101, a list of paths in one call, asked through the binding: answers, the
//! places that stay, and each refusal of a call.

use robots::{Answer, Dialect, Refusal};

const FILE: &[u8] = b"user-agent: *\ndisallow: /sailings/draft\nallow: /sailings\n";
/// A broad allow ahead of a narrow disallow.
const BROAD: &[u8] = b"user-agent: *\nallow: /sailings\ndisallow: /sailings/draft\n";
const NAME: &[u8] = b"drydockbot";

/// What the lent slices hold before a call; no answer is so large.
const BEFORE: usize = 7_777_777;

type Rows<'a> = &'a [(&'a [u8], Answer)];

fn answered(disallow: bool, line: usize) -> Answer {
    Answer {
        refusal: None,
        disallow,
        line,
    }
}

fn refused(refusal: Refusal) -> Answer {
    Answer {
        refusal: Some(refusal),
        disallow: true,
        line: 0,
    }
}

fn paths_of<'a>(rows: Rows<'a>) -> Vec<&'a [u8]> {
    rows.iter().map(|(path, _)| *path).collect()
}

fn answers_of(rows: Rows) -> Vec<Answer> {
    rows.iter().map(|(_, answer)| *answer).collect()
}

/// The single question about the same path.
fn single(dialect: Dialect, file: &[u8], path: &[u8]) -> Answer {
    match robots::decide_in(dialect, file, NAME, path) {
        Ok(decision) => answered(decision.disallow, decision.line),
        Err(refusal) => refused(refusal),
    }
}

/// Asks for the list, and for each path by itself.
fn check(dialect: Dialect, file: &[u8], rows: Rows) {
    let paths = paths_of(rows);
    let list = robots::decide_all(dialect, file, NAME, &paths);
    assert_eq!(list, Ok(answers_of(rows)));
    let singles = paths.iter().map(|path| single(dialect, file, path));
    assert_eq!(singles.collect::<Vec<_>>(), answers_of(rows));
}

/// The number of a call, and what the three slices of so many places hold then.
fn call(
    dialect: usize,
    paths: &[u8],
    ends: &[usize],
    rooms: [usize; 3],
) -> (usize, [Vec<usize>; 3]) {
    let [mut refusals, mut sides, mut lines] = rooms.map(|room| vec![BEFORE; room]);
    let number = robots::batch(
        dialect,
        FILE,
        NAME,
        paths,
        ends,
        &mut refusals,
        &mut sides,
        &mut lines,
    );
    (number, [refusals, sides, lines])
}

/// "nothing is written"
fn check_refused(number: usize, dialect: usize, paths: &[u8], ends: &[usize], rooms: [usize; 3]) {
    let untouched = rooms.map(|room| vec![BEFORE; room]);
    assert_eq!(call(dialect, paths, ends, rooms), (number, untouched));
}

/// "each what a single question gives, a path's own refusal included"
#[test]
fn a_list_is_answered() {
    let too_long = [b'/'; 2_049];
    let rows: Rows = &[
        (b"/sailings/draft/9", answered(true, 2)),
        (b"", refused(Refusal::PathLength)),
        (b"/sailings/9", answered(false, 3)),
        (b"sailings/9", refused(Refusal::PathStart)),
        (b"/sailings/ 9", refused(Refusal::PathOctet)),
        (&too_long, refused(Refusal::PathLength)),
        (b"/harbour", answered(false, 0)),
        (b"/%72obots.txt", answered(false, 0)),
        (b"/sailings/draf%74", answered(true, 2)),
    ];
    check(Dialect::Rfc9309, FILE, rows);
    check(Dialect::Draft1996, FILE, rows);
}

/// "the first match in file order decides" (M-113)
#[test]
fn the_dialect_decides() {
    let path = b"/sailings/draft/9".as_slice();
    check(Dialect::Rfc9309, BROAD, &[(path, answered(true, 3))]);
    check(Dialect::Draft1996, BROAD, &[(path, answered(false, 2))]);
}

/// "any other "%": %25": no digits are taken from the next path.
#[test]
fn an_escape_ends_with_its_path() {
    let file = b"user-agent: *\ndisallow: /aA\ndisallow: /a%254";
    let rows: Rows = &[
        (b"/a%4", answered(true, 3)),
        (b"1/b", refused(Refusal::PathStart)),
        (b"/a%41", answered(true, 2)),
        (b"/a%", answered(false, 0)),
        (b"41", refused(Refusal::PathStart)),
    ];
    check(Dialect::Rfc9309, file, rows);
    check(Dialect::Draft1996, file, rows);
}

/// "an empty list needs length 0": no slice is too short for it.
#[test]
fn an_empty_list() {
    assert_eq!(
        robots::decide_all(Dialect::Rfc9309, FILE, NAME, &[]),
        Ok(Vec::new())
    );
    let untouched = [1, 0, 2].map(|room| vec![BEFORE; room]);
    assert_eq!(call(0, b"", &[], [1, 0, 2]), (0, untouched));
    check_refused(12, 0, b"/", &[], [1, 1, 1]);
    check_refused(20, 2, b"/", &[], [1, 1, 1]);
}

/// "Places beyond the last path stay."
#[test]
fn places_beyond_the_list_stay() {
    let (paths, ends) = (b"/sailings/draft/sailings/x", [15, 15, 26]);
    for rooms in [[3, 3, 3], [4, 3, 3], [3, 4, 3], [3, 3, 4], [6, 6, 6]] {
        let mut expected = [[0, 3, 0], [1, 1, 0], [2, 0, 3]].map(Vec::from);
        for (place, room) in expected.iter_mut().zip(rooms) {
            place.resize(room, BEFORE);
        }
        assert_eq!(call(0, paths, &ends, rooms), (0, expected));
    }
}

/// "12 if the ends ever decrease or the last isn't the joined length"
#[test]
fn ends_are_refused() {
    let lists: [&[usize]; 9] = [
        &[],
        &[3],
        &[5],
        &[2, 1, 4],
        &[4, 2],
        &[4, 5],
        &[4, 3, 4],
        &[usize::MAX, 4],
        &[2, usize::MAX],
    ];
    for ends in lists {
        check_refused(12, 0, b"/a/b", ends, [4, 4, 4]);
        // ahead of 13
        check_refused(12, 0, b"/a/b", ends, [0, 0, 0]);
    }
}

/// "13 if an answer slice is shorter than the list"
#[test]
fn short_slices_are_refused() {
    for rooms in [
        [1, 2, 2],
        [2, 1, 2],
        [2, 2, 1],
        [0, 2, 2],
        [9, 9, 0],
        [0; 3],
    ] {
        check_refused(13, 0, b"/a/b", &[2, 4], rooms);
        check_refused(13, 1, b"/a/b", &[2, 4], rooms);
    }
}

/// "20 for an unknown dialect, first of all"
#[test]
fn unknown_dialects_are_refused() {
    for dialect in [2, 255, 256, 1 << 32, (1 << 32) + 1, usize::MAX] {
        check_refused(20, dialect, b"/a/b", &[2, 4], [2, 2, 2]);
        check_refused(20, dialect, b"/a/b", &[4, 2], [0, 0, 0]);
    }
}

/// "Refusals: 1 and 2": no path of the list is answered then.
#[test]
fn a_file_or_a_name_is_refused() {
    let inside = vec![b' '; 512_000];
    let outside = vec![b' '; 512_001];
    let ask = |file: &[u8], name: &[u8]| {
        robots::decide_all(Dialect::Rfc9309, file, name, &[b"/".as_slice(), b""])
    };
    let rows = vec![answered(false, 0), refused(Refusal::PathLength)];
    assert_eq!(ask(&inside, &[b'a'; 64]), Ok(rows));
    assert_eq!(ask(&outside, b"no name"), Err(Refusal::Length));
    assert_eq!(ask(&inside, b"no name"), Err(Refusal::Name));
    assert_eq!(ask(&inside, b""), Err(Refusal::Name));
    assert_eq!(ask(&inside, &[b'a'; 65]), Err(Refusal::Name));
}
