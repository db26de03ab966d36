//! One question about a list of paths (document 02, M-101), the library's answers
//! whole, and the evaluator's beside it.

use generator::BatchCase;

use crate::ask::{exact, shown};

/// The answer slices: refusals, sides and lines.
pub type Answers = [Box<[usize]>; 3];

/// The slices before they are lent. Their numbers vary, and none is an answer.
pub fn lent(lengths: [usize; 3]) -> Answers {
    [0, 1, 2].map(|slice| {
        let places = 0..lengths[slice];
        places.map(|place| usize::MAX - 3 * place - slice).collect()
    })
}

/// Asks the library about the list where its parts stand, into slices lent by
/// the caller.
pub fn ask_in_place(
    dialect: usize,
    [file, name, paths]: [&[u8]; 3],
    ends: &[usize],
    [refusals, sides, lines]: [&mut [usize]; 3],
) -> usize {
    library::batch(dialect, file, name, paths, ends, refusals, sides, lines)
}

/// The path at this place.
pub fn path_at(case: &BatchCase, place: usize) -> &[u8] {
    let start = place.checked_sub(1).map_or(0, |before| case.ends[before]);
    &case.paths[start..case.ends[place]]
}

/// A list for a message.
pub fn list_shown(case: &BatchCase) -> String {
    let (file, name, paths) = (shown(&case.file), shown(&case.name), shown(&case.paths));
    let front = &case.ends[..case.ends.len().min(60)];
    format!(
        "dialect {}, file {file}, name {name}, paths {paths}, {} ends {front:?}, lengths {:?}",
        case.dialect,
        case.ends.len(),
        case.lengths
    )
}

/// The refusal of the call and its slices, from memory of exactly their length.
/// Nothing that is given is changed.
pub fn asked(case: &BatchCase) -> (usize, Answers) {
    let given = [&case.file, &case.name, &case.paths].map(|part| exact(part));
    let ends: Box<[usize]> = Box::from(case.ends.as_slice());
    let mut answers = lent(case.lengths);
    let refusal = ask_in_place(
        case.dialect,
        given.each_ref().map(|part| &**part),
        &ends,
        answers.each_mut().map(|slice| &mut **slice),
    );
    let [file, name, paths] = given;
    let kept = *file == *case.file && *name == *case.name && *paths == *case.paths;
    assert!(kept && *ends == *case.ends, "changed: {}", list_shown(case));
    (refusal, answers)
}

/// What the evaluator says.
pub fn evaluated(case: &BatchCase) -> (usize, Answers) {
    let mut answers = lent(case.lengths);
    let refusal = evaluator::batch(
        case.dialect,
        &case.file,
        &case.name,
        &case.paths,
        &case.ends,
        answers.each_mut().map(|slice| &mut **slice),
    );
    (refusal, answers)
}

/// Every place of the three slices is as expected.
pub fn check_slices(case: &BatchCase, answers: &Answers, expected: &Answers) {
    for (slice, what) in ["refusals", "sides", "lines"].into_iter().enumerate() {
        let mut pairs = answers[slice].iter().zip(&expected[slice]);
        if let Some(place) = pairs.position(|(one, other)| one != other) {
            let (one, other) = (answers[slice][place], expected[slice][place]);
            let is_answered = expected[0].get(place).is_some_and(|number| *number < 20);
            let path = match is_answered {
                true => shown(path_at(case, place)),
                false => "none".to_string(),
            };
            let list = list_shown(case);
            panic!("{what}[{place}] is {one}, not {other}; path {path}; {list}");
        }
    }
}

/// The call's refusal and every place of the three slices are the evaluator's;
/// gives them back. Refused, all places stay.
pub fn check_batch(case: &BatchCase) -> (usize, Answers) {
    let (refusal, answers) = asked(case);
    let (due, expected) = evaluated(case);
    assert_eq!(refusal, due, "{}", list_shown(case));
    check_slices(case, &answers, &expected);
    if refusal > 0 {
        check_slices(case, &answers, &lent(case.lengths));
    }
    (refusal, answers)
}

/// The paths as one list, asked for the crawler "a" into slices of just its
/// length.
pub fn list_of(dialect: usize, file: &[u8], list: &[&[u8]]) -> BatchCase {
    let ends = list.iter().scan(0, |end, path| {
        *end += path.len();
        Some(*end)
    });
    BatchCase {
        dialect,
        file: file.to_vec(),
        name: b"a".to_vec(),
        paths: list.concat(),
        ends: ends.collect(),
        lengths: [list.len(); 3],
    }
}

/// Library and evaluator refuse the call.
pub fn check_refused_batch(case: &BatchCase, refusal: usize) {
    assert_eq!(check_batch(case).0, refusal, "{}", list_shown(case));
}

/// The library gives these three numbers for each path, and leaves the places
/// behind them.
pub fn check_library(case: &BatchCase, numbers: &[[usize; 3]]) {
    assert_eq!(case.ends.len(), numbers.len(), "one answer a path");
    let (refusal, answers) = asked(case);
    assert_eq!(refusal, 0, "{}", list_shown(case));
    let mut expected = lent(case.lengths);
    for (place, numbers) in numbers.iter().enumerate() {
        (0..3).for_each(|slice| expected[slice][place] = numbers[slice]);
    }
    check_slices(case, &answers, &expected);
}

/// Library and evaluator give these, whatever the slices have behind them.
pub fn check_answers(case: &BatchCase, numbers: &[[usize; 3]]) {
    for more in [[0, 0, 0], [1, 0, 3], [0, 2, 0], [50, 50, 50]] {
        let case = BatchCase {
            lengths: more.map(|more| case.ends.len() + more),
            ..case.clone()
        };
        check_batch(&case);
        check_library(&case, numbers);
    }
}
