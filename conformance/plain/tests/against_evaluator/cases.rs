//! The examples of the sources, the rows of the definitions, and written-down
//! and generated questions.

use std::collections::BTreeMap;

use evaluator::Decision;
use examples::{Asked, Expected, Question};
use generator::SEED;

use crate::deciding::{check_decide, check_decide_in, question_shown};
use crate::definition_lists::check_batch_row;

/// How many of the examples ask for a decision in each dialect; and how many of
/// the questions of the definitions' rows ask for a decision, or about a list.
const EXAMPLES: [usize; 2] = [163, 42];
const QUESTIONS: [usize; 2] = [195, 21];

/// Generated questions of each of two sorts, with long files, and walks of each
/// of two sorts.
const GENERATED: usize = 110_000;
const LONG: usize = 240;
const WALKS: usize = 50_000;

#[test]
fn every_example_of_the_sources() {
    let mut asked = [0; 2];
    for row in examples::all().unwrap_or_else(|fault| panic!("{fault}")) {
        let Question::Decide {
            dialect,
            file,
            name,
            path,
        } = &row.question
        else {
            continue;
        };
        asked[*dialect] += 1;
        let answer = Expected::Decide(check_decide_in(*dialect, file, name, path));
        let message = question_shown(file, name, path);
        assert_eq!(answer, row.expected, "{message}");
    }
    assert_eq!(asked, EXAMPLES, "examples that ask for a decision");
}

#[test]
fn every_row_of_the_definitions() {
    let (mut decisions, mut lists) = (0, 0);
    for row in examples::definition_rows() {
        println!("{}", row.place);
        match row.asked {
            Asked::Decide {
                dialect,
                file,
                name,
                path,
                told,
            } => {
                decisions += 1;
                let answer = check_decide_in(dialect, &file, &name, &path);
                assert_eq!(told.of(&answer), told);
            }
            Asked::Batch(row) => {
                lists += 1;
                check_batch_row(&row);
            }
            _ => {}
        }
    }
    assert_eq!([decisions, lists], QUESTIONS, "decisions and lists");
}

#[test]
fn every_written_down_question() {
    for case in generator::decide_edges() {
        check_decide(&case.file, &case.name, &case.path);
    }
}

/// Decided by one rule with the pattern.
#[test]
fn every_walk() {
    let worked_out = examples::walk_rows();
    let worked_out = worked_out.into_iter().map(|row| (row.pattern, row.path));
    let cases = generator::match_edges()
        .into_iter()
        .chain(generator::match_cases(SEED, WALKS))
        .chain(generator::derived_match_cases(SEED, WALKS));
    let (mut asked, mut found) = (0, 0);
    for (pattern, path) in worked_out.chain(cases.map(|case| (case.pattern, case.path))) {
        let file = [b"user-agent: *\ndisallow: ", pattern.as_slice()].concat();
        asked += 1;
        found += usize::from(check_decide(&file, b"a", &path).line > 0);
    }
    assert!(
        found > 40_000 && asked - found > 40_000,
        "{found} of {asked}"
    );
}

/// What a decision is counted as.
fn sort(decision: &Decision) -> &'static str {
    match (decision.refusal, decision.line, decision.disallow) {
        (0, 0, _) => "allow by no rule",
        (0, _, false) => "allow by a rule",
        (0, _, true) => "disallow",
        (1, ..) => "refusal 1",
        (2, ..) => "refusal 2",
        (3, ..) => "refusal 3",
        (4, ..) => "refusal 4",
        (5, ..) => "refusal 5",
        _ => "another refusal",
    }
}

/// All refusals and all sorts of answers are well represented.
#[test]
fn many_generated_questions() {
    let cases = generator::decide_cases(SEED, GENERATED)
        .chain(generator::derived_decide_cases(SEED, GENERATED))
        .chain(generator::long_decide_cases(SEED, LONG));
    let mut seen: BTreeMap<&str, usize> = BTreeMap::new();
    for case in cases {
        let decision = check_decide(&case.file, &case.name, &case.path);
        *seen.entry(sort(&decision)).or_default() += 1;
    }
    println!("{seen:?}");
    assert!(seen.values().sum::<usize>() >= 200_000, "{seen:?}");
    let least = [
        ("allow by a rule", 50_000),
        ("allow by no rule", 50_000),
        ("disallow", 50_000),
        ("refusal 1", 100),
        ("refusal 2", 5_000),
        ("refusal 3", 2_000),
        ("refusal 4", 2_000),
        ("refusal 5", 2_000),
    ];
    assert!(seen.keys().copied().eq(least.map(|(sort, _)| sort)));
    for (sort, least) in least {
        assert!(seen[sort] >= least, "{sort}: {seen:?}");
    }
}
