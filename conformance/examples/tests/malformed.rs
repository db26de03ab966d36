//! A data file with a fault is an error that names the file and the line. A row of
//! the definitions' tables with a fault is a panic.

use std::panic::catch_unwind;

use evaluator::RFC9309;
use examples::{read, table_rows, Asked, BatchRow, Question, Told};

const RULES: &str = "at 001, here\nrules\n    user-agent: a\n    disallow: /x\nend\n";

const EXCHANGE: &str = r#"exchange_row "^" "|" "a:|" "b:\r" "c" [] (0 ∷ 1 ∷ []) "n" "/^" (allow 0 0 0) (disallow 2 3 4)"#;

/// Two rows of lists, with what they call by names.
const LISTS: &str = r#"
refused_list r d n p e m = record { batch = batch_of d "a:|b" n p e m; refusal = r; after = m }
for_one = lent (50 ∷ []) [] (70 ∷ 71 ∷ [])
nine_ends = 1 ∷ 3 ∷ []
nine_paths = "//b"
for_nine =
    lent (50 ∷ 51 ∷ [])
    [] (70 ∷ [])
table =
    -- two rows
    refused_list 20 2 "n" "/a" (2 ∷ []) for_one
    ∷ answered_list 1 "c|" "n" nine_paths nine_ends for_nine
    (lent (0 ∷ 3 ∷ [])
    [] (1 ∷ []))
    ∷ []
"#;

#[track_caller]
fn fault(text: &str, line: usize, reason: &str) {
    let found = read("bad.txt", text).expect_err("a fault").to_string();
    assert_eq!(found, format!("bad.txt:{line}: {reason}"));
}

#[track_caller]
fn decide_fault(row: &str, reason: &str) {
    fault(&format!("{RULES}{row}\n"), 6, reason);
}

#[track_caller]
fn table_fault(text: &str, reason: &str) {
    let fault = catch_unwind(|| table_rows("bad.antt", text)).expect_err("a fault");
    let found = fault.downcast::<String>().expect("a message");
    assert!(found.contains(reason), "{found}");
}

/// The row of an exchange with the one text in the other's place.
#[track_caller]
fn exchange_fault(good: &str, bad: &str, reason: &str) {
    assert!(EXCHANGE.contains(good), "{good}");
    let text = format!("    {}\n", EXCHANGE.replacen(good, bad, 1));
    table_fault(&text, reason);
}

/// The same with the rows of lists.
#[track_caller]
fn list_fault(good: &str, bad: &str, reason: &str) {
    assert!(LISTS.contains(good), "{good}");
    table_fault(&LISTS.replacen(good, bad, 1), reason);
}

#[test]
fn a_good_file_is_read() {
    let row = "decide | 001-x-01 | a | /x | disallow | disallow 2 0 2 | /x\n";
    let rows = read("good.txt", &format!("{RULES}{row}")).expect("no fault");
    assert_eq!(rows.len(), 1);
    assert_eq!((rows[0].row, rows[0].id.as_str()), (6, "001-x-01"));
}

#[test]
fn a_row_has_a_dialect() {
    let decide = "decide | 001-x-01 | a | /x | disallow | disallow 2 0 2 | /x\n";
    let draft = "draft | 001-x-02 | a | /x | disallow | disallow 2 0 2 | /x\n";
    let rows = read("good.txt", &format!("{RULES}{decide}{draft}")).expect("no fault");
    let dialects: Vec<usize> = rows
        .iter()
        .map(|row| match row.question {
            Question::Decide { dialect, .. } => dialect,
            _ => panic!("no decision: {}", row.id),
        })
        .collect();
    assert_eq!(dialects, [0, 1]);
    assert_eq!(rows[0].expected, rows[1].expected);
}

#[test]
fn faults_of_form() {
    let unknown = "neither a row nor any other known line";
    let row = "match | 001-x-01 | / | / | yes | yes 1\n";
    fault(row, 1, "a row before any at");
    fault("rules\nend\n", 1, "a rules file before any at");
    fault("at  \n", 1, "at without a place");
    fault("at x\n\nsay | 001-x-01 | / | / | yes | yes 1\n", 3, unknown);
    fault("at x\nmatch | 001-x-01 | / | / | yes\n", 2, unknown);
    fault("at x\n\n# y\nend\n", 4, unknown);
    fault("at x\nrules\n    a\n", 3, "the rules file has no end");
    fault(
        "at x\nrules\na: b\nend\n",
        3,
        "a line of a rules file isn't moved in",
    );
    fault(
        "at x\nrules\nend\nrules\nend\n",
        4,
        "a second rules file under one at",
    );
    fault(
        &format!("at x\n{row}{row}"),
        3,
        "the id 001-x-01 stands twice",
    );
}

#[test]
fn faults_of_columns() {
    fault("at x\nmatch | 1-x | / | / | yes | yes 1\n", 2, "no id: 1-x");
    fault(
        "at x\nmatch | 001-x-01 | / | / | maybe | yes 1\n",
        2,
        "neither yes nor no: maybe",
    );
    fault(
        "at x\nmatch | 001-x-01 | / | / | yes | yes\n",
        2,
        "0 numbers, not 1",
    );
    fault(
        "at x\nmatch | 001-x-01 | / | / | yes | refused 0\n",
        2,
        "refused wants one number above 0",
    );
    fault(
        "at x\nline | 001-x-01 | a | agent | blank 0 0\n",
        2,
        "no kind of line: agent",
    );
    fault(
        "at x\nnormalise | 001-x-01 | /\\q | / | /\n",
        2,
        "a backslash that means nothing",
    );
    fault(
        "at x\nnormalise | 001-x-01 | /\\xG0 | / | /\n",
        2,
        "\\x without two hex digits",
    );
}

#[test]
fn faults_of_decisions() {
    fault(
        "at x\ndecide | 001-x-01 | a | /x | allow | allow 0 0 0 | -\n",
        2,
        "decide without a rules file",
    );
    fault(
        "at x\ndraft | 001-x-01 | a | /x | allow | allow 0 0 0 | -\n",
        2,
        "draft without a rules file",
    );
    decide_fault(
        "draft | 001-x-01 | a | /x | disallow | disallow 3 0 2 | /x",
        "the rules file has no such line",
    );
    decide_fault(
        "decide | 001-x-01 | a | /x | open | allow 0 0 0 | -",
        "no decision: open",
    );
    decide_fault(
        "decide | 001-x-01 | a | /x | allow | undefined 0 0 0 | -",
        "document 01 leaves no decision undefined",
    );
    decide_fault(
        "decide | 001-x-01 | a | /x | disallow | disallow 2 0 2 | -",
        "line and deciding pattern don't go together",
    );
    decide_fault(
        "decide | 001-x-01 | a | /x | disallow | disallow 3 0 2 | /x",
        "the rules file has no such line",
    );
    decide_fault(
        "decide | 001-x-01 | a | /x | disallow | disallow 1 0 2 | /x",
        "the deciding line lacks the pattern",
    );
    decide_fault(
        "decide | 001-x-01 | a | /x | disallow | disallow two 0 2 | /x",
        "no number: two",
    );
}

#[test]
fn a_row_of_an_exchange_asks_twice() {
    let rows = table_rows("good.antt", &format!("    ∷ {EXCHANGE}\n"));
    let place = format!("good.antt:1: {EXCHANGE}");
    assert!(rows.iter().all(|row| row.place == place));
    let decide = |file: &[u8], told| Asked::Decide {
        dialect: RFC9309,
        file: file.to_vec(),
        name: b"n".to_vec(),
        path: b"/^".to_vec(),
        told: Told::Answer(told),
    };
    let asked: Vec<Asked> = rows.into_iter().map(|row| row.asked).collect();
    let before = decide(b"\xEF\xBB\xBF\na:\nb:\rc", [0, 0, 0, 0, 0]);
    let after = decide(b"\xEF\xBB\xBF\nb:\ra:\nc", [0, 1, 2, 3, 4]);
    assert_eq!(asked, [before, after]);
}

#[test]
fn faults_of_exchanges() {
    // a part, a list, the path or an answer is missing
    exchange_fault(r#""c" "#, "", r#"" expected at: [] (0 ∷ 1 ∷ [])"#);
    exchange_fault("[] ", "", r#"( expected at: "n" "/^" (allow"#);
    exchange_fault(r#""/^" "#, "", r#"" expected at: (allow 0 0 0)"#);
    exchange_fault(" (disallow 2 3 4)", "", "( expected at: ");
    // one answer too many
    exchange_fault("4)", "4) (allow 0 0 0)", "the row should end here");
    // what a list or an answer holds
    exchange_fault("(0 ∷ 1 ∷ [])", "(0 ∷ 1)", "∷ expected at: )");
    exchange_fault("(0 ∷", "(x ∷", "a number expected, not x");
    exchange_fault(
        "allow 0 0 0",
        "allow 0 0",
        "allow wants three numbers, not [0, 0]",
    );
    exchange_fault("disallow", "deny", "neither allow nor disallow: deny");
}

#[test]
fn rows_of_lists_are_read_with_their_names() {
    let rows = table_rows("good.antt", LISTS);
    let places: Vec<&str> = rows.iter().map(|row| &row.place[..13]).collect();
    assert_eq!(places, ["good.antt:11:", "good.antt:12:"]);
    let lent = [vec![50], vec![], vec![70, 71]];
    let refused = BatchRow {
        dialect: 2,
        file: b"a:\nb".to_vec(),
        name: b"n".to_vec(),
        paths: b"/a".to_vec(),
        ends: vec![2],
        refusal: 20,
        slices: [lent.clone(), lent],
    };
    let answered = BatchRow {
        dialect: 1,
        file: b"c\n".to_vec(),
        name: b"n".to_vec(),
        paths: b"//b".to_vec(),
        ends: vec![1, 3],
        refusal: 0,
        slices: [
            [vec![50, 51], vec![], vec![70]],
            [vec![0, 3], vec![], vec![1]],
        ],
    };
    let asked: Vec<Asked> = rows.into_iter().map(|row| row.asked).collect();
    assert_eq!(asked, [refused, answered].map(Asked::Batch));
}

#[test]
fn faults_of_names() {
    // a name, or the text that rows share, isn't defined
    list_fault("\nfor_one", "\nfor_two", "( expected at: for_one");
    list_fault("\nnine_paths", "\nnine_file", "\" expected at: nine_paths");
    list_fault("\nrefused_list", "\nlist", "\" expected at: 20 2");
    list_fault("\"a:|b\"", "f", "\" expected at: 20 2");
    // or is something else
    list_fault("= 1 ∷ 3 ∷ []", "= 1 ∷ 3", "∷ expected at: )");
    list_fault("= 1 ∷ 3 ∷ []", "= \"/\"", "( expected at: \"/\"");
    list_fault("= \"//b\"", "= []", "\" expected at: ([])");
    list_fault("for_one = lent", "for_one = room", "lent expected at: room");
    list_fault("    lent (50 ∷ 51 ∷ [])\n", "", "lent expected at: [] (70");
}

#[test]
fn faults_of_lists() {
    // a number, the ends or the slices are missing
    list_fault("20 2 \"n\"", "20 \"n\"", "a number expected, not \"n\"");
    list_fault("(2 ∷ []) for_one", "for_one", "a number expected, not lent");
    list_fault("(2 ∷ []) for_one", "(2 ∷ [])", "( expected at: ");
    list_fault("nine_ends for_nine", "nine_ends", "( expected at: ");
    // what stands below is missing, stands apart, or is too much
    list_fault("\n    [] (1 ∷ []))", "", "( expected at: ");
    list_fault("    [] (1", "    -- sides\n    [] (1", "( expected at: ");
    list_fault("    [] (1", "    [] [] (1", ") expected at: (1 ∷ []))");
    list_fault("(1 ∷ []))", "(1 ∷ []))\n    for_one", "the row should end");
    list_fault("    ∷ answered", "    answered", "the row should end here");
    // what a slice holds
    list_fault("(0 ∷ 3 ∷ [])", "(0 ∷ 3)", "∷ expected at: )");
    list_fault("(0 ∷ 3 ∷ [])", "(0 ∷ x ∷ [])", "a number expected, not x");
}
