//! How long the library takes, beside an evaluator in plain C, the independent
//! evaluator, and a pass over the same octets that counts LFs; or beside another
//! build of it. `docs/BENCHMARKS.md` says what is measured.

mod batch;
mod beside;
mod counting;
mod deciding;
mod eleven;
mod growth;
mod inputs;
mod lists;
mod loaded;
mod loaded_plain;
mod measure;
mod others;
mod passes;
mod patterns;
mod picture;
mod rows;
mod same;
mod sections;
mod shapes;
mod sites;
mod small;
mod starts;
mod table;

use std::process::exit;

use inputs::Input;
use loaded::Signature::{WithDialect, WithoutDialect};
use measure::Medians;
use passes::Passes;

const USAGE: &str =
    "cargo run --release --manifest-path conformance/Cargo.toml -p benchmark --offline --locked";
const MODES: &str =
    "alone or with '-- table', '-- deciding', '-- batch', '-- beside OLD/librobots.a' or \
     '-- once ARCHIVE ROW' behind it, and with 'without-dialect' behind that if the archive is \
     from before 0.2.0";

fn main() {
    let arguments: Vec<String> = std::env::args().skip(1).collect();
    let arguments: Vec<&str> = arguments.iter().map(String::as_str).collect();
    if cfg!(debug_assertions) {
        misused("it is built without --release");
    }
    match arguments[..] {
        [] => run_all(),
        ["table"] => table::run(),
        // what the program itself starts
        ["start", number] => starts::start(number_of(number), &sections::all()),
        ["count"] => counting::count(&sections::all()),
        ["count-lists"] => batch::count(),
        ["deciding"] => run_deciding(),
        ["batch"] => batch::run(),
        ["beside", older] => beside::run(older, WithDialect),
        ["beside", older, "without-dialect"] => beside::run(older, WithoutDialect),
        ["once", archive, row] => beside::once(archive, WithDialect, row),
        ["once", archive, row, "without-dialect"] => beside::once(archive, WithoutDialect, row),
        _ => misused("it takes no such arguments"),
    }
}

fn number_of(text: &str) -> usize {
    text.parse()
        .unwrap_or_else(|_| misused("a start has a number"))
}

fn print_unit() {
    println!("ns for each octet, median of {}", measure::REPETITIONS);
    println!();
}

fn run_deciding() {
    print_unit();
    deciding::run();
}

fn run_all() {
    print_unit();
    run_records();
    println!();
    deciding::run();
    println!();
    eleven::run();
}

fn misused(fault: &str) -> ! {
    stop(&format!("{fault}: run '{USAGE}', {MODES}"));
}

fn stop(message: &str) -> ! {
    eprintln!("benchmark: {message}");
    exit(2);
}

/// Prints the table of lines, paths and patterns.
fn run_records() {
    println!(
        "{:<14} {:>8} {:>8} {:>9} {:>10} {:>8} {:>18} {:>16}",
        "input",
        "octets",
        "calls",
        "library",
        "evaluator",
        "LF pass",
        "library/evaluator",
        "library/LF pass"
    );
    for (input, passes) in passes::ASKED {
        run(&input(), passes);
    }
}

fn run(input: &Input, passes: &Passes) {
    let records = input.records();
    let medians = passes::checked_medians(input, &records, passes);
    print_row(input, records.len() / passes.parts, &medians);
}

fn print_row(input: &Input, calls: usize, medians: &Medians<2>) {
    let octets = input.text.len();
    let [library, evaluator] = medians.answering;
    let each = |nanoseconds: f64| nanoseconds / octets as f64;
    println!(
        "{:<14} {:>8} {:>8} {:>9.3} {:>10.3} {:>8.3} {:>18.2} {:>16.1}",
        input.name,
        octets,
        calls,
        each(library),
        each(evaluator),
        each(medians.lf_pass),
        library / evaluator,
        library / medians.lf_pass
    );
}
