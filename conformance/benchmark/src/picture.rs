//! The picture of the first section: ns a question, as bars.

use std::fs;

use crate::sections::Section;
use crate::starts::Times;

const FILE: &str = concat!(env!("CARGO_MANIFEST_DIR"), "/../../docs/benchmark.svg");

const TITLE: &str = "ns for a question, by file (a logarithmic scale; less is better)";

/// The bars of a file, with their colours.
const BARS: [(&str, &str); 3] = [
    ("library", "#1f6fb4"),
    ("plain C", "#8a8f98"),
    ("evaluator in Rust", "#e0a030"),
];

/// In the picture's points.
const WIDTH: f64 = 760.0;
const LEFT: f64 = 110.0;
const RIGHT: f64 = 650.0;
const TOP: f64 = 64.0;
const BAR: f64 = 16.0;
const GROUP: f64 = 62.0;

/// The scale, in powers of ten of a nanosecond.
const FROM: i32 = 2;
const TO: i32 = 7;

pub fn write(files: &Section, times: &[Times]) -> Result<(), String> {
    fs::write(FILE, drawn(files, times)).map_err(|fault| format!("docs/benchmark.svg: {fault}"))
}

fn drawn(files: &Section, times: &[Times]) -> String {
    let bottom = TOP + files.rows.len() as f64 * GROUP;
    let height = bottom + 30.0;
    let mut parts = vec![
        format!(
            "<svg xmlns=\"http://www.w3.org/2000/svg\" viewBox=\"0 0 {WIDTH} {height}\" \
             width=\"{WIDTH}\" height=\"{height}\" font-family=\"sans-serif\" font-size=\"13\">"
        ),
        rectangle((0.0, 0.0), (WIDTH, height), "#ffffff"),
        text((LEFT, 22.0), "start", TITLE),
    ];
    parts.extend(legend());
    parts.extend(scale(bottom));
    for (at, (row, times)) in files.rows.iter().zip(times).enumerate() {
        let top = TOP + at as f64 * GROUP + 8.0;
        parts.push(text((LEFT - 8.0, top + 1.8 * BAR), "end", &row.name));
        parts.extend(bars(top, times));
    }
    parts.push("</svg>\n".to_string());
    parts.join("\n")
}

fn text((x, y): (f64, f64), anchor: &str, text: &str) -> String {
    format!(
        "<text x=\"{x:.1}\" y=\"{y:.1}\" text-anchor=\"{anchor}\" fill=\"#222222\">{text}</text>"
    )
}

fn rectangle((x, y): (f64, f64), (width, height): (f64, f64), colour: &str) -> String {
    format!(
        "<rect x=\"{x:.1}\" y=\"{y:.1}\" width=\"{width:.1}\" height=\"{height:.1}\" fill=\"{colour}\"/>"
    )
}

fn legend() -> Vec<String> {
    let mut parts = Vec::new();
    for (at, (name, colour)) in BARS.iter().enumerate() {
        let x = LEFT + at as f64 * 110.0;
        parts.push(rectangle((x, 36.0), (12.0, 12.0), colour));
        parts.push(text((x + 18.0, 46.5), "start", name));
    }
    parts
}

/// A line at each power of ten.
fn scale(bottom: f64) -> Vec<String> {
    let mut parts = Vec::new();
    for power in FROM..=TO {
        let time = 10_f64.powi(power);
        parts.push(rectangle(
            (place(time), TOP),
            (1.0, bottom - TOP),
            "#dddddd",
        ));
        parts.push(text((place(time), bottom + 18.0), "middle", &grouped(time)));
    }
    parts
}

/// The bars of one file, with their times.
fn bars(top: f64, times: &Times) -> Vec<String> {
    let all = [Some(times.library), Some(times.plain_c), times.evaluator];
    let mut parts = Vec::new();
    for (at, (time, (_, colour))) in all.into_iter().zip(BARS).enumerate() {
        let Some(time) = time else { continue };
        let y = top + at as f64 * BAR;
        let end = place(time);
        parts.push(rectangle((LEFT, y), (end - LEFT, BAR - 2.0), colour));
        parts.push(text((end + 5.0, y + BAR - 4.0), "start", &grouped(time)));
    }
    parts
}

/// Where the scale has this time.
fn place(time: f64) -> f64 {
    let (from, to) = (f64::from(FROM), f64::from(TO));
    LEFT + (time.log10() - from).max(0.0) / (to - from) * (RIGHT - LEFT)
}

/// A whole number with a comma before each three digits.
fn grouped(number: f64) -> String {
    let digits = format!("{number:.0}");
    let mut grouped = String::new();
    for (at, digit) in digits.chars().enumerate() {
        if at > 0 && (digits.len() - at) % 3 == 0 {
            grouped.push(',');
        }
        grouped.push(digit);
    }
    grouped
}
