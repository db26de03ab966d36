//! The program's whole output against the independent evaluator's.

use std::collections::BTreeMap;
use std::fs;
use std::path::Path;
use std::process::Output;

use evaluator::RFC9309;
use examples::{definition_rows, Asked, Expected, Question};
use generator::SEED;

const MOST_INPUT: usize = 65_536;

/// Generated inputs.
const INPUTS: usize = 400;

/// An input for a message: its beginning, if it is long.
fn shown(input: &[u8]) -> String {
    let front = &input[..input.len().min(400)];
    format!("\"{}\" ({} octets)", front.escape_ascii(), input.len())
}

/// "It writes one line", and nothing else; gives that line without its LF.
fn check_output(output: &Output, expected: &[u8], input: &[u8]) -> String {
    let written = String::from_utf8_lossy(&output.stdout);
    let expected = String::from_utf8_lossy(expected);
    assert_eq!(
        written,
        expected,
        "program and evaluator on {}",
        shown(input)
    );
    assert!(output.stderr.is_empty(), "messages on {}", shown(input));
    assert!(
        output.status.success(),
        "{} on {}",
        output.status,
        shown(input)
    );
    expected.trim_end_matches('\n').to_string()
}

/// The program writes what the evaluator does; gives its line.
fn check(input: &[u8]) -> String {
    let output = program::run(input, usize::MAX);
    check_output(&output, &evaluator::program(input), input)
}

/// The program writes this line.
fn check_line(input: &[u8], line: &str) {
    assert_eq!(check(input), line, "{}", shown(input));
}

/// The beginning, lengthened with the block to this length.
fn lengthened(beginning: &str, block: &str, length: usize) -> Vec<u8> {
    let blocks = block.bytes().cycle();
    beginning.bytes().chain(blocks).take(length).collect()
}

/// Document 01's example.
#[test]
fn the_example() {
    let input = "drydockbot\n/sailings/draft/9\nuser-agent: *\n\
        disallow: /sailings/draft\nallow: /sailings\n";
    check_line(input.as_bytes(), "disallow line 2 unread 0 compared 24");
}

/// "A part that ends with the input needs no LF; a missing part is empty."
#[test]
fn parts_of_the_input() {
    for (input, line) in [
        ("", "refused 2"),
        ("\n", "refused 2"),
        ("\n\n", "refused 2"),
        ("\n/\n", "refused 2"),
        ("a", "refused 3"),
        ("a\n", "refused 3"),
        ("a\n\n", "refused 3"),
        ("a\n\nuser-agent: a\nallow: /", "refused 3"),
        ("a\nx", "refused 4"),
        ("a\n#\n", "refused 4"),
        ("a\n/#", "refused 5"),
        ("a\n/\0\n", "refused 5"),
        ("a\n/", "allow line 0 unread 0 compared 0"),
        ("a\n/\n", "allow line 0 unread 0 compared 0"),
        ("a\n/\n\n", "allow line 0 unread 0 compared 0"),
        (
            "a\n/x\nuser-agent: a\ndisallow: /x",
            "disallow line 2 unread 0 compared 2",
        ),
        (
            "a\n/x\nuser-agent: a\ndisallow: /x\n",
            "disallow line 2 unread 0 compared 2",
        ),
        (
            "a\n/x\n\nallow: y\nuser-agent: a\nallow: /x\n",
            "allow line 4 unread 1 compared 2",
        ),
        (
            "a\n/robots.txt\nuser-agent: 9\ndisallow: /",
            "allow line 0 unread 1 compared 0",
        ),
    ] {
        check_line(input.as_bytes(), line);
    }
    let output = program::run_on_nothing();
    check_output(&output, b"refused 2\n", b"");
}

/// M-102's row of the table; "*" alone; what begins with neither "/" nor "*".
#[test]
fn patterns_that_begin_with_a_star() {
    for (input, line) in [
        (
            "a\n/x.gif\nuser-agent: *\ndisallow: *.gif$",
            "disallow line 2 unread 0 compared 4",
        ),
        (
            "a\n/x\nuser-agent: *\nallow: /x\ndisallow: *",
            "allow line 2 unread 0 compared 2",
        ),
        (
            "a\n/x\nuser-agent: *\ndisallow: $*\nallow: *",
            "allow line 3 unread 1 compared 0",
        ),
    ] {
        check_line(input.as_bytes(), line);
    }
}

/// "The value's name is now its longest beginning of A-Z a-z - _ ; the rest is
/// ignored." (M-105) The first line of the input isn't such a value.
#[test]
fn names_with_a_version_behind_them() {
    for (input, line) in [
        (
            "drydockbot\n/x\nuser-agent: DrydockBot/2.1\ndisallow: /",
            "disallow line 2 unread 0 compared 1",
        ),
        (
            "Drydock\n/x\nuser-agent: DrydockBot/2.1\ndisallow: /",
            "allow line 0 unread 0 compared 0",
        ),
        (
            "a\n/x\nuser-agent: *\ndisallow: /\nuser-agent: a 2\nallow: /y",
            "allow line 0 unread 0 compared 2",
        ),
        (
            "a\n/x\nuser-agent: */2\nuser-agent: 2a\ndisallow: /",
            "allow line 0 unread 2 compared 0",
        ),
        ("a/2.1\n/x\nuser-agent: a/2.1\ndisallow: /", "refused 2"),
    ] {
        check_line(input.as_bytes(), line);
    }
}

/// Only LF ends a name and a path; a CR is an octet of theirs.
#[test]
fn carriage_returns() {
    for (input, line) in [
        ("a\r\n/\nuser-agent: a", "refused 2"),
        ("a\r/\ruser-agent: a\rdisallow: /", "refused 2"),
        ("a\n/\r\nuser-agent: a", "refused 5"),
        ("a\n\r/\n", "refused 4"),
        (
            "a\n/\nuser-agent: a\rdisallow: /\r",
            "disallow line 2 unread 0 compared 1",
        ),
        (
            "a\n/\nuser-agent: a\r\ndisallow: /\r\n",
            "disallow line 2 unread 0 compared 1",
        ),
        (
            "a\n/\n\n\ruser-agent: a\n\rdisallow: /",
            "disallow line 5 unread 0 compared 1",
        ),
    ] {
        check_line(input.as_bytes(), line);
    }
}

/// "program only: input over 65,536 octets", before all others.
#[test]
fn the_longest_input() {
    for (beginning, block, line) in [
        (
            "a\n/\nuser-agent: a\ndisallow: /\n",
            "#",
            "disallow line 2 unread 0 compared 1",
        ),
        (
            "a\n/\nuser-agent: a\ndisallow: /",
            "*",
            "disallow line 2 unread 0 compared 1",
        ),
        (
            "a\n/\nuser-agent: a\ndisallow: *",
            "*",
            "disallow line 2 unread 0 compared 0",
        ),
        ("a\n/\n", "\n", "allow line 0 unread 0 compared 0"),
        ("", "a", "refused 2"),
        ("", "\n", "refused 2"),
        ("a\n/", "a", "refused 3"),
        ("a\n", "#", "refused 3"),
        ("a\nx\n", "#", "refused 4"),
        ("a\n/ \n", "#", "refused 5"),
    ] {
        check_line(&lengthened(beginning, block, MOST_INPUT), line);
        for more in [1, 2, MOST_INPUT, 512_000] {
            let input = lengthened(beginning, block, MOST_INPUT + more);
            check_line(&input, "refused 7");
        }
    }
}

/// Numbers of several digits, and one of each length.
#[test]
fn long_numbers() {
    // LF ends a line each time; the agent line is the last but one
    let tail = "user-agent: a\ndisallow: /";
    for lines in [6, 7, 96, 97, 98, 996, 9_996, 65_000] {
        let input = format!("a\n/\n{}{tail}", "\n".repeat(lines));
        let line = format!("disallow line {} unread 0 compared 1", lines + 2);
        check_line(input.as_bytes(), &line);
    }
    for unread in [9, 10, 99, 100, 1_000, 8_000] {
        let input = format!("a\n/\n{}{tail}", "allow:x\n".repeat(unread));
        let line = format!("disallow line {} unread {unread} compared 1", unread + 2);
        check_line(input.as_bytes(), &line);
    }
    // "/" 1; tries at 1 to 1,023, each of 1,025 pairs
    let rule = format!("disallow: /*{}b\n", "a".repeat(1_024));
    for rules in [1, 10, 60] {
        let path = "a".repeat(2_047);
        let input = format!("a\n/{path}\nuser-agent: *\n{}", rule.repeat(rules));
        let compared = rules * (1 + 1_023 * 1_025);
        let line = format!("allow line 0 unread 0 compared {compared}");
        check_line(input.as_bytes(), &line);
    }
}

/// The rows of the definitions' tables, as the program's input; those of
/// decisions in the RFC's dialect only, as the program has no other.
#[test]
fn every_row_of_the_definitions() {
    let (mut runs, mut decisions) = (0, 0);
    for row in definition_rows() {
        match row.asked {
            Asked::Program { input, output } => {
                runs += 1;
                check_output(&program::run(&input, usize::MAX), &output, &input);
            }
            Asked::Decide {
                dialect: RFC9309,
                file,
                name,
                path,
                ..
            } => {
                decisions += 1;
                check(&[name, path, file].join(b"\n".as_slice()));
            }
            _ => {}
        }
    }
    assert_eq!((runs, decisions), (6, 150), "runs and decisions");
}

/// The examples of the sources in the RFC's dialect, with the answers that are
/// written beside them.
#[test]
fn every_example_of_a_decision() {
    let mut rows = 0;
    for row in examples::all().unwrap_or_else(|fault| panic!("{fault}")) {
        let Question::Decide {
            dialect: RFC9309,
            file,
            name,
            path,
        } = &row.question
        else {
            continue;
        };
        let Expected::Decide(expected) = &row.expected else {
            panic!("{}: no decision is expected", row.id);
        };
        rows += 1;
        let input = [name.as_slice(), path, file].join(b"\n".as_slice());
        let line = match expected.refusal {
            0 => format!(
                "{} line {} unread {} compared {}",
                ["allow", "disallow"][usize::from(expected.disallow)],
                expected.line,
                expected.unread,
                expected.compared
            ),
            refusal => format!("refused {refusal}"),
        };
        check_line(&input, &line);
    }
    assert_eq!(rows, 163, "rows that ask for a decision");
}

/// Sizes and octets that are written down, and generated inputs: every refusal
/// and every sort of answer is among them.
#[test]
fn written_down_and_generated_inputs() {
    let cases = generator::program_edges()
        .into_iter()
        .chain(generator::program_cases(SEED, INPUTS));
    let mut seen: BTreeMap<String, usize> = BTreeMap::new();
    for case in cases {
        let line = check(&case.input);
        let sort = match line.split_once(" line ") {
            Some((side, rest)) if rest.starts_with("0 ") => format!("{side} by no rule"),
            Some((side, _)) => side.to_string(),
            None => line,
        };
        *seen.entry(sort).or_default() += 1;
    }
    println!("{seen:?}");
    for (sort, least) in [
        ("allow", 10),
        ("allow by no rule", 100),
        ("disallow", 100),
        ("refused 2", 100),
        ("refused 3", 50),
        ("refused 4", 10),
        ("refused 5", 20),
        ("refused 7", 20),
    ] {
        let count = seen.get(sort).copied().unwrap_or(0);
        assert!(count >= least, "{sort}: {count}, less than {least}");
    }
}

/// The input in pieces, and as a file: how it comes changes nothing.
#[test]
fn the_input_in_pieces_and_as_a_file() {
    let folder = Path::new(env!("CARGO_TARGET_TMPDIR"));
    let name = folder.join("the_input_in_pieces_and_as_a_file");
    let mut inputs: Vec<Vec<u8>> = generator::program_cases(SEED, 30)
        .map(|case| case.input)
        .collect();
    let beginning = "a\n/x\nuser-agent: a\ndisallow: /x\n";
    for length in [MOST_INPUT - 1, MOST_INPUT, MOST_INPUT + 1, 9 * MOST_INPUT] {
        inputs.push(lengthened(beginning, "\n", length));
    }
    for input in inputs {
        let expected = evaluator::program(&input);
        let small = if input.len() < 1_000 { 1 } else { 977 };
        for piece in [small, 4_096] {
            check_output(&program::run(&input, piece), &expected, &input);
        }
        fs::write(&name, &input).expect("a file can be written");
        check_output(&program::run_on_file(&name), &expected, &input);
    }
    fs::remove_file(&name).expect("the file can be removed");
}
