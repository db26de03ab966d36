//! Every small file.

use evaluator::RFC9309;

use crate::deciding::check_decide_in;

const LINES: [&str; 9] = [
    "user-agent: a",
    "user-agent: *",
    "user-agent: B/2.1",
    "user-agent: 9",
    "allow: *x",
    "disallow: /",
    "disallow: x",
    "allow:",
    "sitemap: /",
];

/// Every row of up to this many of nine lines.
const MOST: usize = 5;

/// Every file of these lines for two crawlers: all orders of rules, and all ways
/// in which groups begin, go on and end.
pub(crate) fn check_files_of(dialect: usize, lines: [&str; 9], path: &[u8]) {
    let places: Vec<u8> = (0..lines.len() as u8).collect();
    let mut seen = [0; 3];
    for row in generator::strings(&places, MOST) {
        let rows: Vec<&str> = row.iter().map(|at| lines[usize::from(*at)]).collect();
        let file = rows.join("\n");
        for name in ["a", "b"] {
            let answer = check_decide_in(dialect, file.as_bytes(), name.as_bytes(), path);
            seen[match (answer.line, answer.disallow) {
                (0, _) => 0,
                (_, false) => 1,
                (_, true) => 2,
            }] += 1;
        }
    }
    println!("by no rule, allow and disallow: {seen:?}");
    // 9^0 + .. + 9^5 files
    assert_eq!(seen.iter().sum::<usize>(), 2 * 66_430);
    assert!(seen.iter().all(|count| *count > 10_000), "{seen:?}");
}

#[test]
fn every_file_of_few_lines() {
    check_files_of(RFC9309, LINES, b"/x");
}
