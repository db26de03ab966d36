//! Times of all rows, in several program starts: one can be twice as slow as
//! another, by where stack and code lie.

use std::env;
use std::hint::black_box;
use std::process::Command;
use std::time::{Duration, Instant};

use crate::measure::median;
use crate::rows::{Both, Row, Side};
use crate::sections::Section;
use crate::{shapes, stop};

/// It is odd, so that one of them is the median.
pub const STARTS: usize = 9;

/// Each start has this variable longer by so many octets, which lie on the
/// stack.
const VARIABLE: &str = "BENCHMARK_STACK";
const LONGER: usize = 464;

/// Each start has so many octets more before the code of library and plain C.
/// Functions begin at multiples of 16 octets.
const FURTHER: usize = 16;

/// A pass is repeated until it takes about so long.
const PASS: Duration = Duration::from_micros(20);

/// Rounds over all rows, so that a slow moment doesn't meet a row in each.
const ROUNDS: usize = 3;

/// Turns of a row in a round at least, and how long it takes turns.
const TURNS: usize = 3;
const ROW: Duration = Duration::from_millis(8);

/// Nanoseconds of a question, medians over the starts.
pub struct Times {
    pub library: f64,
    pub plain_c: f64,
    /// Where it was measured.
    pub evaluator: Option<f64>,
    /// Library to plain C: the median, the least and the greatest.
    pub ratios: [f64; 3],
}

/// In one start: prints a line for each row, with the least time of each side.
pub fn start(number: usize, sections: &[Section]) {
    let both = Both::load(FURTHER * number);
    let mut least = round(sections, &both);
    for _ in 1..ROUNDS {
        let times = round(sections, &both).into_iter().flatten();
        for (least, time) in least.iter_mut().flatten().zip(times) {
            *least = least.min(time);
        }
    }
    for times in least {
        let times: Vec<String> = times.iter().map(f64::to_string).collect();
        println!("{}", times.join(" "));
    }
}

/// The times of all rows, those of the small shapes last.
fn round(sections: &[Section], both: &Both) -> Vec<Vec<f64>> {
    let sides = both.sides();
    let mut all = Vec::new();
    for section in sections {
        for row in &section.rows {
            let mut times = least(row, &sides, ROW);
            if section.drawn {
                times.extend(least(row, &[Side::Evaluator], Duration::ZERO));
            }
            all.push(times);
        }
    }
    all.extend(shapes::small().map(|row| least(&row, &sides, Duration::ZERO)));
    all
}

/// The least nanoseconds of a question by each side, which take turns.
fn least(row: &Row, sides: &[Side], long: Duration) -> Vec<f64> {
    let repeats = match long {
        Duration::ZERO => 1,
        _ => repeats(row, sides[0]),
    };
    let questions = (repeats * row.questions()) as f64;
    let mut least = vec![f64::INFINITY; sides.len()];
    let begin = Instant::now();
    let mut turns = 0;
    while turns < TURNS || begin.elapsed() < long {
        let mut sums = Vec::new();
        for (side, least) in sides.iter().zip(&mut least) {
            let start = Instant::now();
            let sum: usize = (0..repeats).map(|_| black_box(row).pass(*side)).sum();
            *least = least.min(start.elapsed().as_nanos() as f64 / questions);
            sums.push(sum);
        }
        assert!(sums.iter().all(|sum| *sum == sums[0]), "{}: sums", row.name);
        turns += 1;
    }
    least
}

/// After one pass that doesn't count.
fn repeats(row: &Row, side: Side) -> usize {
    black_box(row.pass(side));
    let start = Instant::now();
    black_box(row.pass(side));
    let taken = start.elapsed().as_nanos().max(1);
    (PASS.as_nanos() / taken).max(1) as usize
}

/// Times of all rows, those of the small shapes last.
pub fn times() -> Vec<Times> {
    let starts: Vec<Vec<Vec<f64>>> = (0..STARTS).map(started).collect();
    let over_starts = |row: usize| {
        let times: Vec<&[f64]> = starts.iter().map(|start| &start[row][..]).collect();
        summed_up(&times)
    };
    (0..starts[0].len()).map(over_starts).collect()
}

/// What one start prints: the times of each row.
fn started(number: usize) -> Vec<Vec<f64>> {
    let program = env::current_exe().expect("the program has a path");
    let started = Command::new(program)
        .args(["start", &number.to_string()])
        .env(VARIABLE, "x".repeat(LONGER * number))
        .output()
        .expect("the program can start itself");
    if !started.status.success() {
        stop(&String::from_utf8_lossy(&started.stderr));
    }
    let number = |text: &str| text.parse().expect("a start prints numbers");
    String::from_utf8_lossy(&started.stdout)
        .lines()
        .map(|line| line.split(' ').map(number).collect())
        .collect()
}

/// A row's times in each start.
fn summed_up(starts: &[&[f64]]) -> Times {
    let side = |at: usize| median(starts.iter().map(|times| times[at]).collect());
    let ratios: Vec<f64> = starts.iter().map(|times| times[0] / times[1]).collect();
    let least = ratios.iter().copied().fold(f64::INFINITY, f64::min);
    let greatest = ratios.iter().copied().fold(0.0, f64::max);
    Times {
        library: side(0),
        plain_c: side(1),
        evaluator: (starts[0].len() > 2).then(|| side(2)),
        ratios: [median(ratios), least, greatest],
    }
}
