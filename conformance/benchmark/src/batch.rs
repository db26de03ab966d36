//! A list of paths in one call: library beside plain C, and beside the same
//! questions path by path.

use std::hint::black_box;

use crate::counting::{self, Counts};
use crate::lists::{self, List, PATHS};
use crate::measure::measure_long;
use crate::same;

/// A function that answers a list.
type Batch =
    fn(usize, &[u8], &[u8], &[u8], &[usize], &mut [usize], &mut [usize], &mut [usize]) -> usize;

/// A call's refusal, and its three slices: refusals, sides and lines.
pub type Answers = (usize, [[usize; PATHS]; 3]);

/// Nanoseconds of a list: in one call, in one of plain C, and path by path.
type Times = [f64; 3];

/// The heads of a section's two columns behind the ratio to plain C.
const BY_PATH: [&str; 2] = ["path by path", "call/paths"];
const BY_RULE: [&str; 2] = ["ns/rule,path", "plain C"];

/// A title, the heads, and the rows.
type Section = (&'static str, [&'static str; 2], Vec<List>);

/// The files in both dialects, and the rounds.
fn sections() -> [Section; 3] {
    [
        ("a list of paths", BY_PATH, lists::files()),
        (
            "a list, by the draft of 1996",
            BY_PATH,
            lists::draft_files(),
        ),
        ("a list, by rules that apply", BY_RULE, lists::rounds()),
    ]
}

pub fn run() {
    println!("{PATHS} paths in one call, beside two calls for each path, for its decision and its");
    println!("line; us of a list, medians; instructions of one call");
    let counts = counting::counts("count-lists");
    if counts.is_none() {
        println!("valgrind isn't installed, so instructions are left out");
    }
    let counted = counts.is_some();
    let mut counts = counts.into_iter().flatten();
    for (title, heads, lists) in sections() {
        print_head(title, heads, counted);
        for list in &lists {
            let times = checked_times(list);
            print_times(list, times);
            print_beside(list, times);
            print_counts(counts.next());
        }
    }
}

fn print_head(title: &str, [first, second]: [&str; 2], counted: bool) {
    println!();
    print!(
        "{title:<34} {:>8} {:>9} {:>9} {:>6} {first:>12} {second:>10}",
        "disallow", "library", "plain C", "ratio"
    );
    if counted {
        print!(" {:>12} {:>12} {:>6}", "instructions", "plain C", "ratio");
    }
    println!();
}

fn print_times(list: &List, [call, plain_c, _]: Times) {
    let (_, [_, sides, _]) = ask(list, plain::batch);
    print!(
        "{:<34} {:>8} {:>9.1} {:>9.1} {:>6.2}",
        list.name,
        sides.iter().sum::<usize>(),
        call / 1_000.0,
        plain_c / 1_000.0,
        call / plain_c
    );
}

/// The two columns of the section.
fn print_beside(list: &List, [call, plain_c, by_path]: Times) {
    match list.rules {
        Some(rules) => {
            let each = |time: f64| time / (rules * PATHS) as f64;
            print!(" {:>12.3} {:>10.3}", each(call), each(plain_c));
        }
        None => print!(" {:>12.1} {:>10.3}", by_path / 1_000.0, call / by_path),
    }
}

fn print_counts(counts: Option<Counts>) {
    if let Some([library, plain_c]) = counts {
        let ratio = library / plain_c;
        print!(" {library:>12.0} {plain_c:>12.0} {ratio:>6.2}");
    }
    println!();
}

/// All three give the same answers, and are measured in turn.
fn checked_times(list: &List) -> Times {
    same::list(list);
    measure_long(
        &list.name,
        [
            &|| sum(list, library::batch),
            &|| sum(list, plain::batch),
            &|| path_by_path(list),
        ],
    )
}

/// Asks in one call.
pub fn ask(list: &List, batch: Batch) -> Answers {
    let mut answers = [[0; PATHS]; 3];
    let [refusals, sides, lines] = &mut answers;
    let refused = batch(
        list.dialect,
        black_box(&list.file),
        list.crawler,
        black_box(&list.paths),
        &list.ends,
        refusals,
        sides,
        lines,
    );
    (refused, answers)
}

fn sum(list: &List, batch: Batch) -> usize {
    let (_, [_, sides, lines]) = ask(list, batch);
    sides.iter().sum::<usize>() + lines.iter().sum::<usize>()
}

/// As a caller asks without lists.
fn path_by_path(list: &List) -> usize {
    let file = || black_box(list.file.as_slice());
    let (dialect, name) = (list.dialect, list.crawler);
    let both = |path| {
        library::decide_disallow(dialect, file(), name, path)
            + library::decide_line(dialect, file(), name, path)
    };
    list.each().map(|path| both(black_box(path))).sum()
}

/// Under callgrind: asks library and plain C once for each list.
pub fn count() {
    let sections = sections();
    let lists = sections.iter().flat_map(|(_, _, lists)| lists);
    counting::on_a_stack(|| lists.for_each(count_list));
}

fn count_list(list: &List) {
    for batch in [library::batch as Batch, plain::batch] {
        black_box(sum(list, batch));
        counting::pass_ended();
    }
    // a list is one question
    println!("1");
}
