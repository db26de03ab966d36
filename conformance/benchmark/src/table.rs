//! The table: time and instructions of library and plain C, row by row.

use crate::counting::{self, Counts};
use crate::rows::Row;
use crate::sections::{self, Section};
use crate::starts::{self, Times, STARTS};
use crate::{batch, picture, same, shapes, stop};

/// The dearest small shapes that are shown.
const SHOWN: usize = 5;

/// What a file may cost: ns an octet, and times plain C.
const MOST_AN_OCTET: f64 = 4.0;
const MOST_RATIO: f64 = 1.5;

pub fn run() {
    println!("ns and instructions of a question, in about two minutes; times are medians of");
    println!("{STARTS} program starts, of the least time in each");
    let sections = sections::all();
    check(&sections);
    let counts = counting::counts("count");
    if counts.is_none() {
        println!("valgrind isn't installed, so instructions are left out");
    }
    let times = starts::times();
    let mut at = 0;
    for section in &sections {
        print_section(section, &times[at..], counts.as_ref().map(|all| &all[at..]));
        at += section.rows.len();
    }
    print_small_shapes(&times[at..]);
    println!();
    batch::run();
    picture::write(&sections[0], &times).unwrap_or_else(|fault| stop(&fault));
    println!();
    println!("drew docs/benchmark.svg");
}

/// All rows are answered alike.
fn check(sections: &[Section]) {
    let rows = sections.iter().flat_map(|section| &section.rows);
    rows.for_each(same::check);
    shapes::small().for_each(|row| same::check(&row));
}

fn print_section(section: &Section, times: &[Times], counts: Option<&[Counts]>) {
    print_head(section, counts.is_some());
    for (at, row) in section.rows.iter().enumerate() {
        let counts = counts.map(|counts| &counts[at]);
        print_row(row, section.unit.is_some(), &times[at], counts);
    }
}

fn print_head(section: &Section, counted: bool) {
    let by_unit = |before: &str| match section.unit {
        Some(unit) => format!("{before}{unit}"),
        None => String::new(),
    };
    println!();
    print!(
        "{:<34} {:>10} {:>10} {:>9} {:>9} {:>6} {:>6} {:>6}",
        section.title,
        "library",
        "plain C",
        by_unit("ns/"),
        section.unit.map_or("", |_| "plain C"),
        "ratio",
        "least",
        "most"
    );
    if counted {
        let each = by_unit("each ");
        print!(
            " {:>12} {:>12} {each:>11} {:>6}",
            "instructions", "plain C", "ratio"
        );
    }
    println!();
}

fn print_row(row: &Row, by_unit: bool, times: &Times, counts: Option<&Counts>) {
    let each = |number: f64, digits: usize| match by_unit {
        true => format!("{:.digits$}", number / row.units as f64),
        false => String::new(),
    };
    let [ratio, least, most] = times.ratios;
    print!(
        "{:<34} {:>10.1} {:>10.1} {:>9} {:>9} {ratio:>6.2} {least:>6.2} {most:>6.2}",
        row.name,
        times.library,
        times.plain_c,
        each(times.library, 3),
        each(times.plain_c, 3),
    );
    if let Some([library, plain_c]) = counts {
        print!(
            " {library:>12.0} {plain_c:>12.0} {:>11} {:>6.2}",
            each(*library, 1),
            library / plain_c
        );
    }
    println!();
}

/// A small shape's name, ns an octet of library and plain C, and their ratio.
type Shape = (String, f64, f64, f64);

fn print_small_shapes(times: &[Times]) {
    let shapes: Vec<Shape> = shapes::small()
        .zip(times)
        .map(|(row, times)| {
            let each = |time: f64| time / row.units as f64;
            let (library, plain_c) = (each(times.library), each(times.plain_c));
            (row.name, library, plain_c, times.ratios[0])
        })
        .collect();
    let (alone, grouped) = shapes.split_at(shapes.len() / 2);
    print_over("small shapes", alone);
    print_over("small shapes in a group that applies", grouped);
}

fn print_over(title: &str, shapes: &[Shape]) {
    let over = |over: fn(&&Shape) -> bool| shapes.iter().filter(over).count();
    println!();
    println!(
        "{title}: {} files; over {MOST_AN_OCTET} ns an octet: {}; over {MOST_RATIO} of plain C: {}",
        shapes.len(),
        over(|shape| shape.1 > MOST_AN_OCTET),
        over(|shape| shape.3 > MOST_RATIO)
    );
    print_dearest("dearest by ns an octet", shapes.to_vec(), |shape| shape.1);
    print_dearest("dearest by ratio to plain C", shapes.to_vec(), |shape| {
        shape.3
    });
}

fn print_dearest(title: &str, mut shapes: Vec<Shape>, by: fn(&Shape) -> f64) {
    shapes.sort_by(|one, other| by(other).total_cmp(&by(one)));
    println!(
        "{title:<34} {:>10} {:>10} {:>6}",
        "library", "plain C", "ratio"
    );
    for (name, library, plain_c, ratio) in &shapes[..SHOWN] {
        println!("{name:<34} {library:>10.3} {plain_c:>10.3} {ratio:>6.2}");
    }
}
