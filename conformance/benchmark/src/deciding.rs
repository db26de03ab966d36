//! Deciding, on files as crawlers meet them.

use std::hint::black_box;

use evaluator::RFC9309;

use crate::measure::{measure, Medians, Turns};
use crate::passes::count_line_feeds;
use crate::same;
use crate::sites::{self, Site};

/// A pass asks about at least this many octets of the file.
const OCTETS: usize = 500_000;

type Question<'a> = (&'a [u8], &'a [u8]);

/// Prints a row for each file.
pub fn run() {
    println!(
        "{:<14} {:>7} {:>6} {:>6} {:>9} {:>9} {:>10} {:>8} {:>8} {:>10} {:>8} {:>16} {:>18} {:>16}",
        "deciding",
        "octets",
        "lines",
        "calls",
        "disallow",
        "compared",
        "us a call",
        "library",
        "plain C",
        "evaluator",
        "LF pass",
        "library/plain C",
        "library/evaluator",
        "library/LF pass"
    );
    for site in sites::all() {
        run_site(&site);
    }
}

fn run_site(site: &Site) {
    let questions = questions(site);
    for (name, path) in &questions {
        same::decision(site.name, RFC9309, &site.file, name, path);
    }
    let asked = asked(site);
    print_row(site, &questions, asked.len(), &medians(site, &asked));
}

/// Each name with each path.
pub fn questions(site: &Site) -> Vec<Question<'_>> {
    site.names
        .iter()
        .flat_map(|name| {
            site.paths
                .iter()
                .map(|path| (name.as_bytes(), path.as_bytes()))
        })
        .collect()
}

/// The questions of a pass.
pub fn asked(site: &Site) -> Vec<Question<'_>> {
    let questions = questions(site);
    let times = OCTETS.div_ceil(site.file.len() * questions.len());
    questions.repeat(times)
}

/// Of library, plain C and evaluator, in this order.
fn medians(site: &Site, asked: &[Question]) -> Medians<3> {
    let file = || black_box(site.file.as_slice());
    measure(&Turns {
        name: site.name,
        answering: [
            &|| {
                sum(asked, |name, path| {
                    library::decide_disallow(RFC9309, file(), name, path)
                })
            },
            &|| {
                sum(asked, |name, path| {
                    plain::decide(RFC9309, file(), name, path).disallow
                })
            },
            &|| {
                sum(asked, |name, path| {
                    usize::from(evaluator::decide(file(), name, path).disallow)
                })
            },
        ],
        lf_pass: &|| asked.iter().map(|_| count_line_feeds(&site.file)).sum(),
        line_feeds: count_line_feeds(&site.file) * asked.len(),
    })
}

/// How many of the questions are disallowed.
pub fn sum(asked: &[Question], disallow: impl Fn(&[u8], &[u8]) -> usize) -> usize {
    asked
        .iter()
        .map(|(name, path)| disallow(black_box(name), black_box(path)))
        .sum()
}

fn print_row(site: &Site, questions: &[Question], calls: usize, medians: &Medians<3>) {
    let octets = site.file.len();
    let [library, plain_c, evaluator] = medians.answering;
    let answers = || {
        questions
            .iter()
            .map(|(name, path)| evaluator::decide(&site.file, name, path))
    };
    let compared: usize = answers().map(|answer| answer.compared).sum();
    let disallowed = answers().filter(|answer| answer.disallow).count();
    let cut = usize::from(!site.file.ends_with(b"\n"));
    let each = |nanoseconds: f64| nanoseconds / (octets * calls) as f64;
    println!(
        "{:<14} {:>7} {:>6} {:>6} {:>9} {:>9} {:>10.2} {:>8.3} {:>8.3} {:>10.3} {:>8.3} {:>16.2} {:>18.2} {:>16.1}",
        site.name,
        octets,
        count_line_feeds(&site.file) + cut,
        calls,
        format!("{disallowed} of {}", questions.len()),
        compared / questions.len(),
        library / calls as f64 / 1_000.0,
        each(library),
        each(plain_c),
        each(evaluator),
        each(medians.lf_pass),
        library / plain_c,
        library / evaluator,
        library / medians.lf_pass
    );
}
