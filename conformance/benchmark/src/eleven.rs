//! A pattern with eleven stars that doesn't match: the library's walk, and a
//! matcher that goes back whenever a run doesn't stand.

use std::time::Instant;

use crate::inputs::Input;
use crate::passes::{checked_medians, MATCHING};

/// Octets of the short path, on which going back takes about a second, and of
/// the longest path.
const SHORT: usize = 32;
const LONGEST: usize = 2_048;

/// The "a"s of the last run that make the walk's count the greatest, for this
/// shape and the longest path.
const LONG_RUN: usize = 1_018;

/// About this many pairs are compared in one pass.
const COMPARED: usize = 100_000;

/// A pattern and a path, neither of which normalising changes.
pub struct Case {
    pub name: &'static str,
    pub pattern: Vec<u8>,
    pub path: Vec<u8>,
    /// The pairs that going back compares, where they have been worked out.
    back: Option<u128>,
}

/// "/", ten times "*a", then "*", some more "a"s and "b", which the path
/// doesn't hold: "/" and "a"s only.
fn case(name: &'static str, more: usize, octets: usize) -> Case {
    let last = [b"*".as_slice(), &b"a".repeat(more), b"b"].concat();
    Case {
        name,
        pattern: [b"/".as_slice(), &b"*a".repeat(10), &last].concat(),
        path: [b"/".as_slice(), &b"a".repeat(octets - 1)].concat(),
        back: (more == 0).then(|| pairs_going_back(octets as u128 - 1)),
    }
}

pub fn cases() -> [Case; 3] {
    [
        case("short path", 0, SHORT),
        case("longest path", 0, LONGEST),
        case("and a long last run", LONG_RUN, LONGEST),
    ]
}

/// Prints a row for each case.
pub fn run() {
    println!(
        "{:<22} {:>6} {:>9} {:>9} {:>11} {:>13} {:>30} {:>14}",
        "eleven stars, ns a call",
        "path",
        "compared",
        "bound",
        "library",
        "evaluator",
        "going back compares",
        "going back"
    );
    let [short, longest, long_run] = cases();
    print_row(&short, Some(time_going_back(&short)));
    print_row(&longest, None);
    print_row(&long_run, None);
}

fn print_row(case: &Case, time_back: Option<f64>) {
    let compared = library::match_compared(&case.pattern, &case.path);
    let calls = (COMPARED / compared).max(1);
    let question = [&case.pattern, b"\n".as_slice(), &case.path, b"\n"].concat();
    let input = Input {
        name: case.name,
        text: question.repeat(calls),
    };
    let records = input.records();
    let [library, evaluator] = checked_medians(&input, &records, &MATCHING).answering;
    let each = |nanoseconds: f64| nanoseconds / calls as f64;
    let or_dash = |text: Option<String>| text.unwrap_or_else(|| "-".to_string());
    println!(
        "{:<23} {:>6} {:>9} {:>9} {:>11.0} {:>13.0} {:>30} {:>14}",
        case.name,
        case.path.len(),
        compared,
        // each octet of the pattern is itself or a star, and weighs 1
        case.pattern.len() * case.path.len(),
        each(library),
        each(evaluator),
        or_dash(case.back.map(|pairs| pairs.to_string())),
        or_dash(time_back.map(|time| format!("{time:.0}")))
    );
}

/// Nanoseconds of one match by going back, which must find what the evaluator
/// finds and compare as many pairs as have been worked out.
fn time_going_back(case: &Case) -> f64 {
    let mut compared = 0;
    let start = Instant::now();
    let found = goes_back(&case.pattern, &case.path, &mut compared);
    let time = start.elapsed().as_nanos() as f64;
    let expected = evaluator::match_pattern(&case.pattern, &case.path);
    assert_eq!(found, expected.found, "{}: found", case.name);
    assert_eq!(Some(compared.into()), case.back, "{}: pairs", case.name);
    time
}

/// The usual recursive matcher, for a pattern without an end mark: a star is
/// tried with nothing, then with one octet more each time.
fn goes_back(pattern: &[u8], path: &[u8], compared: &mut u64) -> bool {
    match (pattern, path) {
        ([], _) => true,
        ([b'*', rest @ ..], _) => {
            (0..=path.len()).any(|taken| goes_back(rest, &path[taken..], compared))
        }
        (_, []) => false,
        ([wanted, rest @ ..], [held, after @ ..]) => {
            *compared += 1;
            wanted == held && goes_back(rest, after, compared)
        }
    }
}

/// The pairs that `goes_back` compares for the last run "b" and a path of "/"
/// and n "a"s: 1, and each choice of one to eleven of the "a"s.
fn pairs_going_back(n: u128) -> u128 {
    let mut choices = 1;
    let mut sum = 1;
    for chosen in 1..=11 {
        choices = choices * (n + 1 - chosen) / chosen;
        sum += choices;
    }
    sum
}
