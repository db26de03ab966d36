//! Generated lists of paths, asked of library and evaluator.

use generator::{BatchCase, SEED};

use crate::batch_memory::check_inside;
use crate::batch_rows::{of_call, of_ends, of_list, of_path, of_reasons};
use crate::batch_rules::{of_deciding, of_rules, of_second, Rules};
use crate::batching::{asked, check_batch, list_shown, path_at, Answers};
use crate::exchange_rows::Rows;

/// Lists, and lists about files with many rules.
const LISTS: usize = 40_000;
const MANY_RULES: usize = 2_000;

/// One list of so many is asked inside larger memory too, and one of so many in
/// single questions.
const INSIDE: usize = 3;
const SINGLY: usize = 4;

/// "each what a single question gives": the library's own.
fn check_singly(case: &BatchCase, answers: &Answers) {
    for place in 0..case.ends.len() {
        let (file, name, path) = (&case.file, &case.name, path_at(case, place));
        let numbers = [
            library::decide_refusal(case.dialect, file, name, path),
            library::decide_disallow(case.dialect, file, name, path),
            library::decide_line(case.dialect, file, name, path),
        ];
        let of_list = [0, 1, 2].map(|slice| answers[slice][place]);
        assert_eq!(of_list, numbers, "place {place}: {}", list_shown(case));
    }
}

/// The list's answers are the evaluator's, and for some lists those of larger
/// memory and of single questions.
fn check(case: &BatchCase, index: usize) -> (usize, Answers) {
    let (refusal, answers) = check_batch(case);
    if index % INSIDE == 0 {
        check_inside(case, index / INSIDE);
    }
    if index % SINGLY == 0 && refusal == 0 {
        check_singly(case, &answers);
    }
    (refusal, answers)
}

/// Everything that matters about a call, its ends and its paths occurs.
#[test]
fn many_generated_lists() {
    let mut rows = Rows::default();
    for (index, case) in generator::batch_cases(SEED, LISTS).enumerate() {
        let (refusal, answers) = check(&case, index);
        rows.add(of_call(&case, refusal));
        rows.add(of_reasons(&case, refusal));
        match refusal {
            0 => add_answers(&mut rows, &case, &answers),
            12 => rows.add(of_ends(&case)),
            _ => {}
        }
    }
    rows.finish();
}

fn add_answers(rows: &mut Rows, case: &BatchCase, answers: &Answers) {
    rows.add(of_list(case, answers));
    for place in 0..case.ends.len() {
        rows.add(of_path(case, answers, place));
    }
}

/// Files with 0 to 6,000 rules that apply, which the library goes through in
/// rounds.
#[test]
fn many_lists_about_many_rules() {
    let mut rows = Rows::default();
    for (index, case) in generator::many_rules_cases(SEED, MANY_RULES).enumerate() {
        let (refusal, answers) = check(&case, index);
        if refusal > 0 {
            continue;
        }
        let rules = Rules::of(&case);
        rows.add(of_rules(&rules));
        for place in 0..case.ends.len() {
            rows.add(of_deciding(&rules, answers[2][place]));
            rows.add(of_second(&case, &rules, place));
        }
    }
    rows.finish();
}

/// The same question twice has the same answer: nothing is left from a call.
#[test]
fn nothing_is_kept_between_calls() {
    let lists: Vec<BatchCase> = generator::batch_cases(SEED + 1, 500).collect();
    let first: Vec<_> = lists.iter().map(asked).collect();
    let again: Vec<_> = lists.iter().rev().map(asked).collect();
    assert!(first.iter().eq(again.iter().rev()), "another answer");
}
