//! Walks with many stars, long runs and long paths.

use crate::walks::Row;

type Long = Row<String>;

pub(crate) fn long_groups() -> [(&'static str, Vec<Long>); 4] {
    [
        ("many stars in a row", many_stars_in_a_row()),
        ("eleven stars", eleven_stars()),
        ("runs that nearly stand", runs_that_nearly_stand()),
        ("the longest path", longest_path()),
    ]
}

fn row(pattern: &str, path: &str, found: bool, compared: usize) -> Long {
    (pattern.to_string(), path.to_string(), found, compared)
}

/// Hundreds of stars in a row, at the beginning, at the end and in the middle.
fn many_stars_in_a_row() -> Vec<Long> {
    let rows = |count| {
        let stars = "*".repeat(count);
        [
            row(&format!("/{stars}"), "/", true, 1),
            row(&format!("/{stars}$"), "/", true, 1),
            row(&format!("/{stars}$"), "/xyz", true, 1),
            // "b" at 1, 2 and 3
            row(&format!("/{stars}b"), "/aab", true, 4),
            row(&format!("/{stars}b{stars}"), "/aab", true, 4),
            // "b" at 3 only
            row(&format!("/{stars}b$"), "/aab", true, 2),
            row(&format!("/{stars}b{stars}$"), "/aaa", false, 4),
            row(&stars, "/", true, 0),
            row(&format!("{stars}$"), "/xyz", true, 0),
            // "b" at 0 to 3
            row(&format!("{stars}b{stars}"), "/aab", true, 4),
            row(&format!("{stars}b{stars}$"), "/aaa", false, 4),
            // "b" at 3 only
            row(&format!("{stars}b$"), "/aab", true, 1),
        ]
    };
    [2, 3, 63, 64, 65, 1_000]
        .into_iter()
        .flat_map(rows)
        .collect()
}

/// The run before each star stands at once, and what follows the last one
/// never does, or at the very end.
fn eleven_stars() -> Vec<Long> {
    let pattern = format!("/{}*b", "*a".repeat(10));
    let marked = format!("{pattern}$");
    let star_first = &pattern[1..];
    let short = format!("/{}", "a".repeat(30));
    let long = format!("/{}", "a".repeat(2_047));
    let ended = format!("/{}b", "a".repeat(2_046));
    vec![
        // "/" 1; ten times "a" 1; "b" at 11 to 30
        row(&pattern, &short, false, 31),
        // "b" at 30 only
        row(&marked, &short, false, 12),
        // "b" at 11 to 2,047
        row(&pattern, &long, false, 2_048),
        row(&marked, &long, false, 12),
        row(&pattern, &ended, true, 2_048),
        row(&marked, &ended, true, 12),
        // "a" at 0 and 1; nine times "a" 1; "b" at 11 to 30
        row(star_first, &short, false, 31),
        row(star_first, &ended, true, 2_048),
    ]
}

/// A run that differs in its last octet at each of its tries.
fn runs_that_nearly_stand() -> Vec<Long> {
    let run = format!("{}b", "a".repeat(1_024));
    let alone = format!("/*{run}");
    let after_others = format!("/{}*{run}", "*a".repeat(10));
    let path = format!("/{}", "a".repeat(2_047));
    let triples = format!("/*{}b", "%25".repeat(1_023));
    let percents = format!("/{}", "%".repeat(2_047));
    vec![
        // "/" 1; tries at 1 to 1,023, each of 1,025 pairs
        row(&alone, &path, false, 1 + 1_023 * 1_025),
        // at 0 the first octet differs
        row(&alone[1..], &path, false, 1 + 1_023 * 1_025),
        // "/" 1; ten times "a" 1; tries at 11 to 1,023
        row(&after_others, &path, false, 11 + 1_013 * 1_025),
        // The path is "/" and 2,047 times "%25", 6,142 octets. "/" 1; the run
        // has 3,070 octets and is tried at 1 to 3,072: at 1,024 of these places
        // a "%25" begins and all is compared, at 2,048 the first octet differs.
        row(&triples, &percents, false, 1 + 1_024 * 3_070 + 2_048),
    ]
}

/// The path is "/" and 2,047 times "%25".
fn longest_path() -> Vec<Long> {
    let path = format!("/{}", "%".repeat(2_047));
    let marked = format!("{path}$");
    let some = format!("/{}", "*5".repeat(500));
    let too_many = format!("/{}", "*5".repeat(2_048));
    let empty = format!("/{}{}", "*".repeat(255_999), "5*".repeat(128_000));
    vec![
        row(&path, &path, true, 6_142),
        row(&marked, &path, true, 6_142),
        // "/" 1; each "5" at three places, for the "%" and "2" before it
        row(&some, &path, true, 1 + 500 * 3),
        // the first "5" at 0 too
        row(&some[1..], &path, true, 1 + 500 * 3),
        // one more "5" than the path holds: 2,047 of three tries, then none
        // left
        row(&too_many, &path, false, 1 + 2_047 * 3),
        // ever so many empty runs
        row(&empty, &path, false, 1 + 2_047 * 3),
        row(&empty[1..], &path, false, 1 + 2_047 * 3),
    ]
}
