//! Times passes in turn.

use std::hint::black_box;
use std::time::{Duration, Instant};

/// Passes of each sort. It is odd, so that one of them is the median.
pub const REPETITIONS: usize = 201;

/// Passes of each sort before the first that counts.
const WARM_UP: usize = 5;

/// Turns of passes that take long, at least; and how long they go on.
const LONG_TURNS: usize = 7;
const LONG: Duration = Duration::from_millis(700);

/// Turns of two builds at each place of their code. It is odd too.
pub const TURNS: usize = 101;

/// Each lowers the stack to another place in a page of 4,096 octets, and to
/// another in a line of 64 than the one before. They are odd in number, so that
/// either build begins at each place.
const LOWERING: [fn(&mut dyn FnMut()); 7] = [
    lower_by::<16>,
    lower_by::<608>,
    lower_by::<1_200>,
    lower_by::<1_792>,
    lower_by::<2_384>,
    lower_by::<2_976>,
    lower_by::<3_568>,
];

/// Gives one sum.
pub type Pass<'a> = &'a dyn Fn() -> usize;

/// Passes over the same octets.
pub struct Turns<'a, const ANSWERING: usize> {
    pub name: &'a str,
    /// These answer the same questions. The first is the library's.
    pub answering: [Pass<'a>; ANSWERING],
    /// Counts the LFs.
    pub lf_pass: Pass<'a>,
    /// How many LFs there are.
    pub line_feeds: usize,
}

/// Nanoseconds of one pass.
pub struct Medians<const ANSWERING: usize> {
    pub answering: [f64; ANSWERING],
    pub lf_pass: f64,
}

/// Measures the passes one after the other, again and again. Each time those
/// that answer must give the same sum.
pub fn measure<const ANSWERING: usize>(turns: &Turns<ANSWERING>) -> Medians<ANSWERING> {
    let mut answering = [const { Vec::new() }; ANSWERING];
    let mut lf_pass = Vec::new();
    for repetition in 0..WARM_UP + REPETITIONS {
        let answers = turns.answering.map(timed);
        let (time_lf_pass, line_feeds) = timed(turns.lf_pass);
        for (_, sum) in answers {
            assert_eq!(sum, answers[0].1, "{}: sums", turns.name);
        }
        assert_eq!(line_feeds, turns.line_feeds, "{}: LFs", turns.name);
        if repetition >= WARM_UP {
            for (times, (time, _)) in answering.iter_mut().zip(answers) {
                times.push(time);
            }
            lf_pass.push(time_lf_pass);
        }
    }
    Medians {
        answering: answering.map(median),
        lf_pass: median(lf_pass),
    }
}

/// Measures passes of which some take long, one after the other, again and
/// again: the median of each. Each time they must give the same sum.
pub fn measure_long<const PASSES: usize>(name: &str, passes: [Pass; PASSES]) -> [f64; PASSES] {
    let mut all = [const { Vec::new() }; PASSES];
    let begin = Instant::now();
    let goes_on = |turn: &usize| *turn <= LONG_TURNS || begin.elapsed() < LONG;
    // the first one doesn't count
    for turn in (0..=REPETITIONS).take_while(goes_on) {
        let answers = passes.map(timed);
        for (times, (time, sum)) in all.iter_mut().zip(answers) {
            assert_eq!(sum, answers[0].1, "{name}: sums");
            times.extend((turn > 0).then_some(time));
        }
    }
    all.map(median)
}

/// Measures two builds one after the other, again and again, at each place of
/// their code: nanoseconds of a pass by place and turn. The pass is given the
/// place, and 0 or 1 for the build. Each time both must give the same sum.
pub fn measure_beside(
    name: &str,
    places: usize,
    pass: &dyn Fn(usize, usize) -> usize,
) -> Vec<Vec<[f64; 2]>> {
    let mut times = vec![Vec::new(); places];
    for turn in 0..WARM_UP + TURNS {
        // the other build begins at the next turn
        let order = [turn % 2, 1 - turn % 2];
        for (place, times) in times.iter_mut().enumerate() {
            let mut pair = [(0.0, 0); 2];
            LOWERING[turn % LOWERING.len()](&mut || pair = timed_pair(place, order, pass));
            assert_eq!(pair[0].1, pair[1].1, "{name}: sums");
            if turn >= WARM_UP {
                times.push(pair.map(|(time, _)| time));
            }
        }
    }
    times
}

/// Both builds at one place, one after the other in this order.
fn timed_pair(
    place: usize,
    order: [usize; 2],
    pass: &dyn Fn(usize, usize) -> usize,
) -> [(f64, usize); 2] {
    let mut pair = [(0.0, 0); 2];
    for build in order {
        pair[build] = timed(&|| pass(place, build));
    }
    pair
}

/// Runs it with the stack lower by so many octets, and a frame.
#[inline(never)]
fn lower_by<const OCTETS: usize>(run: &mut dyn FnMut()) {
    let mut room = [0_u8; OCTETS];
    black_box(&mut room);
    run();
    // used after the call too, so that it stays on the stack till then
    black_box(&mut room);
}

fn timed(pass: Pass) -> (f64, usize) {
    let start = Instant::now();
    let sum = black_box(pass());
    (start.elapsed().as_nanos() as f64, sum)
}

pub fn median(mut times: Vec<f64>) -> f64 {
    times.sort_by(f64::total_cmp);
    times[times.len() / 2]
}
