//! Two builds of the library, side by side.

use std::hint::black_box;

use evaluator::RFC9309;

use crate::loaded::{self, Loaded, Signature, LINKED};
use crate::measure::{measure_beside, median, TURNS};
use crate::{deciding, passes, sites, stop};

/// Octets that are put before the code of a build, which is loaded once with
/// each.
const BEFORE_CODE: [usize; 8] = [0, 16, 32, 48, 64, 80, 96, 112];

/// The questions of one row.
struct Row<'a> {
    name: &'static str,
    /// The exported function that is asked.
    function: &'static str,
    /// How many questions there are.
    calls: usize,
    /// Asks them all.
    pass: &'a dyn Fn(&Loaded) -> usize,
}

/// Prints a row for each input: the build in this archive, whose functions of a
/// decision take a dialect or don't, and the one that this program is linked
/// with.
pub fn run(older: &str, signature: Signature) {
    let wanted = BEFORE_CODE.map(|before| {
        [
            (older, before, signature),
            (LINKED, before, Signature::WithDialect),
        ]
    });
    let builds = loaded::load(wanted.as_flattened());
    println!(
        "ns for each call, mean over {} places of the code, median of {TURNS} at each",
        BEFORE_CODE.len()
    );
    println!();
    println!(
        "{:<14} {:>7} {:>11} {:>11} {:>13} {:>13} {:>12} {:>12}",
        "input",
        "calls",
        "before",
        "after",
        "after/before",
        "least before",
        "least after",
        "least/least"
    );
    each_row(&mut |row| print_row(row, &builds));
}

fn print_row(row: &Row, builds: &[Loaded]) {
    let times = measure_beside(row.name, BEFORE_CODE.len(), &|place, build| {
        (row.pass)(&builds[2 * place + build])
    });
    let each = |nanoseconds: f64| nanoseconds / row.calls as f64;
    let mean = |of: fn(&[f64; 2]) -> f64| mean_of_medians(&times, of);
    let least = |build: usize| {
        let all = times.iter().flatten().map(|pair| pair[build]);
        all.fold(f64::INFINITY, f64::min)
    };
    println!(
        "{:<14} {:>7} {:>11.1} {:>11.1} {:>13.3} {:>13.1} {:>12.1} {:>12.3}",
        row.name,
        row.calls,
        each(mean(|[before, _]| *before)),
        each(mean(|[_, after]| *after)),
        mean(|[before, after]| after / before),
        each(least(0)),
        each(least(1)),
        least(1) / least(0)
    );
}

/// The geometric mean over the places of the median of the turns.
fn mean_of_medians(times: &[Vec<[f64; 2]>], of: fn(&[f64; 2]) -> f64) -> f64 {
    let medians = times
        .iter()
        .map(|turns| median(turns.iter().map(of).collect()));
    (medians.map(f64::ln).sum::<f64>() / times.len() as f64).exp()
}

/// Makes one pass of one row over the build in this archive.
pub fn once(archive: &str, signature: Signature, name: &str) {
    let builds = loaded::load(&[(archive, 0, signature)]);
    let mut names = Vec::new();
    each_row(&mut |row| {
        names.push(row.name);
        if row.name == name {
            let sum = (row.pass)(&builds[0]);
            println!("{} calls of {}, sum {sum}", row.calls, row.function);
        }
    });
    if !names.contains(&name) {
        stop(&format!(
            "there is no row '{name}': give one of {}",
            names.join(", ")
        ));
    }
}

/// Makes the inputs and gives the rows, one after the other.
fn each_row(run: &mut dyn FnMut(&Row)) {
    for (input, passes) in passes::ASKED {
        let input = input();
        let records = input.records();
        run(&Row {
            name: input.name,
            function: passes.function,
            calls: records.len() / passes.parts,
            pass: &|build| (passes.loaded)(&records, build),
        });
    }
    for site in sites::all() {
        let asked = deciding::asked(&site);
        run(&Row {
            name: site.name,
            function: "robots_decide_disallow",
            calls: asked.len(),
            pass: &|build| {
                deciding::sum(&asked, |name, path| {
                    build.decide_disallow(RFC9309, black_box(&site.file), name, path)
                })
            },
        });
    }
}
