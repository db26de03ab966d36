//! The rows of the definitions' tables against the evaluator, and those of both
//! dialects against docs/EXAMPLES.md.

use evaluator::{DRAFT1996, RFC9309};
use examples::{definition_rows, Asked, BatchRow, Told, SORTS};

/// The call's refusal and every place of the three slices.
fn check_batch(row: &BatchRow) {
    let [before, after] = &row.slices;
    let mut slices = before.clone();
    let refusal = evaluator::batch(
        row.dialect,
        &row.file,
        &row.name,
        &row.paths,
        &row.ends,
        slices.each_mut().map(|slice| slice.as_mut_slice()),
    );
    assert_eq!((refusal, &slices), (row.refusal, after));
}

fn check(asked: &Asked) {
    match asked {
        Asked::Decide {
            dialect,
            file,
            name,
            path,
            told,
        } => assert_eq!(
            told.of(&evaluator::decide_in(*dialect, file, name, path)),
            *told
        ),
        Asked::Program { input, output } => assert_eq!(evaluator::program(input), *output),
        Asked::Line { line, expected } => assert_eq!(evaluator::line_kind(line), *expected),
        Asked::Match {
            pattern,
            path,
            expected,
        } => assert_eq!(evaluator::match_pattern(pattern, path), *expected),
        Asked::Normalise {
            path,
            buffer: [before, after],
            refusal,
            written,
        } => {
            let mut buffer = before.clone();
            let got = evaluator::normalise(path, &mut buffer);
            assert_eq!((got.refusal, got.written), (*refusal, *written));
            assert_eq!(buffer, *after);
        }
        Asked::Batch(row) => check_batch(row),
    }
}

#[test]
fn the_evaluator_gives_every_row_of_the_definitions() {
    for row in definition_rows() {
        println!("{}", row.place);
        check(&row.asked);
    }
}

#[test]
fn no_row_is_passed_over() {
    let rows = definition_rows();
    for (sort, count) in SORTS {
        let found = rows.iter().filter(|row| row.sort == sort).count();
        assert_eq!(found, count, "questions of the sort {sort}");
    }
    let all: usize = SORTS.iter().map(|(_, count)| count).sum();
    assert_eq!(rows.len(), all);
}

/// A decision as docs/EXAMPLES.md has it.
fn shown(told: &Told) -> String {
    let Told::Answer([0, disallow, line, unread, compared]) = told else {
        panic!("no answer: {told:?}");
    };
    let side = ["allow", "disallow"][*disallow];
    format!("{side} {line} {unread} {compared}")
}

/// The line of docs/EXAMPLES.md for one question in both dialects.
fn both_shown(rows: &[Asked]) -> String {
    let [Asked::Decide {
        dialect: RFC9309,
        file,
        name,
        path,
        told,
    }, Asked::Decide {
        dialect: DRAFT1996,
        file: same_file,
        name: same_name,
        path: same_path,
        told: of_draft,
    }] = rows
    else {
        panic!("not the RFC's row and then the draft's: {rows:?}");
    };
    assert_eq!((file, name, path), (same_file, same_name, same_path));
    assert_eq!(name, b"a");
    let file = std::str::from_utf8(file).expect("a file of ASCII");
    let rules = file.strip_prefix("user-agent: *\n").expect("an agent line");
    let rules: Vec<String> = rules.lines().map(|line| format!("`{line}`")).collect();
    format!(
        "| {} | `{}` | {} | {} |",
        rules.join(", "),
        path.escape_ascii(),
        shown(told),
        shown(of_draft)
    )
}

/// The rows of `both_table`, each answer beside the other.
#[test]
fn the_list_shows_where_the_dialects_differ() {
    let page = concat!(env!("CARGO_MANIFEST_DIR"), "/../../docs/EXAMPLES.md");
    let page = std::fs::read_to_string(page).expect("docs/EXAMPLES.md can be read");
    let (_, behind) = page
        .split_once("\n## Where the dialects differ\n")
        .expect("the section on the dialects");
    let section = behind.split("\n## ").next().expect("its text");
    let listed = section.lines().filter(|line| line.starts_with("| `"));
    let known = |asked: &Asked| match asked {
        Asked::Decide { dialect, .. } => [RFC9309, DRAFT1996].contains(dialect),
        _ => false,
    };
    let rows = definition_rows().into_iter();
    let rows = rows.filter(|row| row.sort == "row_by" && known(&row.asked));
    let rows: Vec<Asked> = rows.map(|row| row.asked).collect();
    let due: Vec<String> = rows.chunks(2).map(both_shown).collect();
    assert_eq!(listed.collect::<Vec<_>>(), due);
    assert_eq!(due.len(), 7);
}
