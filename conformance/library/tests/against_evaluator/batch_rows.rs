//! What generated lists have, of those things that matter to a call.

use evaluator::{DRAFT1996, RFC9309};
use generator::BatchCase;

use crate::batching::{path_at, Answers};
use crate::exchange_answers::is_robots_txt;
use crate::exchange_rows::Row;
use crate::texts::MOST_FILE;

/// The call's refusal, and its dialect.
pub fn of_call(case: &BatchCase, refusal: usize) -> Vec<Row> {
    let is = |number| refusal == number;
    let of_rfc = is(0) && case.dialect == RFC9309;
    let of_draft = is(0) && case.dialect == DRAFT1996;
    vec![
        (true, "lists", 40_000),
        (is(0), "call answered", 25_000),
        (is(1), "call refused 1", 100),
        (is(2), "call refused 2", 1_500),
        (is(12), "call refused 12", 2_000),
        (is(13), "call refused 13", 1_800),
        (is(20), "call refused 20", 1_000),
        (of_rfc, "answered by the RFC", 12_000),
        (of_draft, "answered by the draft", 12_000),
    ]
}

/// What an answered list has.
pub fn of_list(case: &BatchCase, answers: &Answers) -> Vec<Row> {
    let count = case.ends.len();
    let longer = |length: &&usize| **length > count;
    let tails = case.lengths.iter().filter(longer).count();
    let mut threes = answers[0][..count].windows(3);
    let between = threes.any(|three| three[0] == 0 && three[1] > 0 && three[2] == 0);
    let long_file = case.file.len() >= MOST_FILE - 2;
    vec![
        (count == 0, "an empty list", 1_400),
        (count == 1, "one path", 1_600),
        (count >= 300, "300 to 400 paths", 400),
        (tails == 0, "no slice has a tail", 4_500),
        (tails == 3, "each slice has a tail", 1_300),
        (tails % 3 > 0, "some slices have a tail", 15_000),
        (between, "a refused path between two answered", 11_000),
        (long_file, "a file of about 512,000 octets", 90),
    ]
}

/// More than one reason to refuse, or just one of a sort.
pub fn of_reasons(case: &BatchCase, refusal: usize) -> Vec<Row> {
    let count = case.ends.len();
    let short = case.lengths.map(|length| length < count);
    let shorts = short.iter().filter(|is_short| **is_short).count();
    let one = refusal == 13 && shorts == 1;
    let by_one = refusal == 13 && case.lengths.iter().min() == Some(&(count - 1));
    let ends = case.ends.windows(2).any(|pair| pair[0] > pair[1])
        || case.ends.last().copied().unwrap_or(0) != case.paths.len();
    let name = evaluator::decide(b"", &case.name, b"/").refusal == 2;
    let file = case.file.len() > MOST_FILE;
    vec![
        (one && short[0], "13, refusals alone", 350),
        (one && short[1], "13, sides alone", 350),
        (one && short[2], "13, lines alone", 350),
        (by_one, "13, shorter by one", 900),
        (refusal == 13 && shorts == 2, "13, two slices", 500),
        (refusal == 12 && shorts > 0, "12 before 13", 150),
        (refusal == 2 && ends, "2 before 12", 100),
        (refusal == 2 && shorts > 0, "2 before 13", 100),
        (refusal == 1 && name, "1 before 2", 5),
        (
            refusal == 1 && (ends || shorts > 0),
            "1 before 12 or 13",
            20,
        ),
        (refusal == 20 && file, "20 before 1", 2),
        (refusal == 20 && name, "20 before 2", 50),
        (refusal == 20 && ends, "20 before 12", 70),
        (refusal == 20 && shorts > 0, "20 before 13", 70),
    ]
}

/// How the ends of a list are damaged that is refused for them.
pub fn of_ends(case: &BatchCase) -> Vec<Row> {
    let BatchCase { paths, ends, .. } = case;
    let falls = |at: usize| ends[at] < ends[at - 1];
    let at_second = ends.len() > 1 && falls(1);
    let at_last = ends.len() > 1 && falls(ends.len() - 1);
    let inside = (2..ends.len().saturating_sub(1)).any(falls);
    let sorted = ends.is_sorted();
    let last = ends.last().copied().unwrap_or(0);
    let less = sorted && last.wrapping_add(1) == paths.len();
    let more = sorted && last == paths.len() + 1;
    let first_is_max = ends.first() == Some(&usize::MAX);
    vec![
        (at_second, "a decrease at the second end", 300),
        (inside, "a decrease inside", 300),
        (at_last, "a decrease at the last end", 280),
        (last == paths.len(), "a decrease, the last end right", 420),
        (less, "the last end one less", 320),
        (more, "the last end one more", 320),
        (last == usize::MAX, "the last end 2^64 less 1", 200),
        (first_is_max, "the first end 2^64 less 1", 90),
        (ends.is_empty(), "an empty list with octets", 110),
    ]
}

/// One path's answer.
pub fn of_path(case: &BatchCase, answers: &Answers, place: usize) -> Vec<Row> {
    let [refusal, side, line] = [0, 1, 2].map(|slice| answers[slice][place]);
    let path = path_at(case, place);
    let answered = refusal == 0;
    let robots = answered && is_robots_txt(path);
    vec![
        (true, "paths", 300_000),
        (answered, "path answered", 240_000),
        (refusal == 3, "path refused 3", 24_000),
        (refusal == 4, "path refused 4", 40_000),
        (refusal == 5, "path refused 5", 6_000),
        (answered && side == 0, "allow", 180_000),
        (answered && side == 1, "disallow", 55_000),
        (answered && line == 0, "by no rule", 120_000),
        (line > 0 && side == 0, "allow by a rule", 60_000),
        (line > 0, "by a rule", 115_000),
        (robots, "/robots.txt", 9_000),
        (
            robots && path != b"/robots.txt",
            "/robots.txt, spelt otherwise",
            4_000,
        ),
        (
            reads_on(case, place, 1),
            "a cut escape, one digit behind",
            1_000,
        ),
        (
            reads_on(case, place, 2),
            "a cut escape, two digits behind",
            1_000,
        ),
    ]
}

/// Whether the path ends in an escape that lacks so many digits, the next begins
/// with them, and the answer with them would be another.
fn reads_on(case: &BatchCase, place: usize, digits: usize) -> bool {
    let end = case.ends[place];
    let path = path_at(case, place);
    let cut = path.len().checked_sub(3 - digits);
    let is_cut = cut.is_some_and(|at| path[at] == b'%');
    let behind = case.paths.get(end..end + digits).unwrap_or(b"");
    let is_escape = behind.len() == digits && behind.iter().all(u8::is_ascii_hexdigit);
    if !is_cut || !is_escape {
        return false;
    }
    let longer = [path, behind].concat();
    let [one, other] = [path, &longer]
        .map(|path| evaluator::decide_in(case.dialect, &case.file, &case.name, path));
    (one.disallow, one.line) != (other.disallow, other.line)
}
