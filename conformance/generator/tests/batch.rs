//! The lists of paths: how long they are, and that they are the same each time.

use generator::{batch_cases, many_rules_cases, BatchCase, SEED};

#[test]
fn the_cases_are_the_same_each_time() {
    for cases in [drawn_lists, drawn_rules] {
        let few = cases(SEED, 40);
        assert_eq!(few, cases(SEED, 80)[..40]);
        assert_ne!(few, cases(SEED + 1, 40));
    }
}

fn drawn_lists(seed: u64, count: usize) -> Vec<BatchCase> {
    batch_cases(seed, count).collect()
}

fn drawn_rules(seed: u64, count: usize) -> Vec<BatchCase> {
    many_rules_cases(seed, count).collect()
}

/// From none to 400, and short ones about files of many rules.
#[test]
fn the_lists_have_at_most_400_paths() {
    let longest = |cases: Vec<BatchCase>| cases.iter().map(|case| case.ends.len()).max();
    let all = drawn_lists(SEED, 5_000);
    assert!(all.iter().any(|case| case.ends.is_empty()));
    assert!((390..=400).contains(&longest(all).unwrap_or(0)));
    assert!((30..=40).contains(&longest(drawn_rules(SEED, 500)).unwrap_or(0)));
}

/// Most ends are those of the joined paths, and most answer slices are as long as
/// the list or longer.
#[test]
fn most_lists_are_sound() {
    let all = drawn_lists(SEED, 5_000);
    let ends = all.iter().filter(|case| {
        let last = case.ends.last().copied().unwrap_or(0);
        case.ends.is_sorted() && last == case.paths.len()
    });
    let long = |length: &usize, case: &BatchCase| *length >= case.ends.len();
    let lengths = all
        .iter()
        .filter(|case| case.lengths.iter().all(|length| long(length, case)));
    for count in [ends.count(), lengths.count()] {
        assert!((4_500..4_800).contains(&count), "{count} of 5,000");
    }
}
