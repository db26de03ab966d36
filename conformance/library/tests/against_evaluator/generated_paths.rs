//! Written-down and generated questions about a path, alone and with a pattern.

use std::collections::BTreeSet;

use generator::SEED;

use crate::ask::{check_match, check_path, check_room};

const PATHS: usize = 120_000;
/// Of each of the two sorts.
const MATCHES: usize = 150_000;

#[test]
fn every_written_down_path() {
    for case in generator::normalise_edges() {
        check_room(&case.path, case.room);
    }
}

#[test]
fn every_written_down_match() {
    for case in generator::match_edges() {
        check_match(&case.pattern, &case.path);
    }
}

/// Every refusal is among them.
#[test]
fn many_generated_paths() {
    let mut seen = BTreeSet::new();
    for case in generator::normalise_cases(SEED, PATHS) {
        seen.insert(check_room(&case.path, case.room));
        check_path(&case.path);
    }
    let expected = BTreeSet::from([0, 3, 4, 5, 6]);
    assert_eq!(seen, expected, "refusals among the paths");
}

/// Every refusal of a short pattern is among them, and about half of the
/// others match, with an end mark and without, with a star first and without.
#[test]
fn many_generated_matches() {
    let cases =
        generator::match_cases(SEED, MATCHES).chain(generator::derived_match_cases(SEED, MATCHES));
    let mut seen = BTreeSet::new();
    let (mut pairs, mut answered, mut matches) = (0, 0, 0);
    let mut star_first = [0; 2];
    for case in cases {
        let answer = check_match(&case.pattern, &case.path);
        seen.insert((answer.refusal, answer.found, case.pattern.ends_with(b"$")));
        if answer.refusal == 0 && case.pattern.starts_with(b"*") {
            star_first[usize::from(answer.found)] += 1;
        }
        pairs += 1;
        answered += usize::from(answer.refusal == 0);
        matches += usize::from(answer.found);
    }
    println!("{pairs} pairs, {answered} answered, {matches} matches");
    println!("not found and found with a star first: {star_first:?}");
    assert!(
        star_first.iter().all(|count| *count > 20_000),
        "{star_first:?}"
    );
    assert!(pairs >= 200_000, "{pairs} pairs");
    let (least, most) = (answered * 40 / 100, answered * 60 / 100);
    assert!(
        (least..=most).contains(&matches),
        "{matches} matches among {answered}"
    );
    for marked in [false, true] {
        assert!(seen.contains(&(0, true, marked)), "found, {marked}");
        assert!(seen.contains(&(0, false, marked)), "not found, {marked}");
    }
    let refusals: BTreeSet<_> = seen.iter().map(|(refusal, ..)| *refusal).collect();
    let expected = BTreeSet::from([0, 3, 4, 5, 8]);
    assert_eq!(refusals, expected, "refusals among the pairs");
}
