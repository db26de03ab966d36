//! Generated cases, small ones, for which the definitions of crates/protocol
//! compute what the evaluator answers. The cases are written into a crate of
//! their own, beside copies of the crates they need, and `rt check` computes
//! them there.

use std::fmt::Display;
use std::fs;
use std::path::{Path, PathBuf};
use std::process::Command;

use evaluator::{decide_in, line_kind, match_pattern, normalise, program, Decision};
use evaluator::{DRAFT1996, RFC9309};
use generator::{DecideCase, LineCase, MatchCase, NormaliseCase, ProgramCase, SEED};

/// How many generated cases of each sort, and from how many they are taken.
const CASES: usize = 160;
const DRAWN: usize = 100_000;
/// How many cases one statement computes.
const AT_ONCE: usize = 50;
/// No longer file, line or input, and no longer path or pattern, so that a
/// case is computed in a fraction of a second.
const LONGEST_FILE: usize = 160;
const LONGEST_PATH: usize = 40;

/// Neither 0 nor 1, in however many of their bits they look like them.
const UNKNOWN: [usize; 8] = [2, 3, 255, 256, 257, 1 << 32, (1 << 32) + 1, usize::MAX];

/// The crate's one proof file in front of the cases.
const HEAD: &str = include_str!("definitions/head.txt");

/// A list of numbers, as antt writes it.
fn list<T: Display>(numbers: &[T]) -> String {
    let items: String = numbers.iter().map(|n| format!("{n} ∷ ")).collect();
    format!("({items}[])")
}

fn answer(dialect: usize, case: &DecideCase) -> Decision {
    decide_in(dialect, &case.file, &case.name, &case.path)
}

fn decided(dialect: usize, case: &DecideCase) -> String {
    let answer = answer(dialect, case);
    let expected = [
        answer.refusal,
        usize::from(answer.disallow),
        answer.line,
        answer.place,
        answer.length,
        answer.unread,
        answer.compared,
    ];
    let (file, name, path) = (list(&case.file), list(&case.name), list(&case.path));
    let expected = list(&expected);
    format!("decided {dialect} {file} {name} {path} {expected}")
}

fn matched(case: &MatchCase) -> String {
    let answer = match_pattern(&case.pattern, &case.path);
    let found = usize::from(answer.found);
    let expected = list(&[answer.refusal, found, answer.compared]);
    let (pattern, path) = (list(&case.pattern), list(&case.path));
    format!("matched {pattern} {path} {expected}")
}

fn told(case: &LineCase) -> String {
    let answer = line_kind(&case.line);
    let expected = [answer.refusal, answer.kind, answer.place, answer.length];
    format!("told {} {}", list(&case.line), list(&expected))
}

fn normalised(case: &NormaliseCase) -> String {
    let buffer: Vec<u8> = (0..case.room).map(|at| (at * 7 % 256) as u8).collect();
    let mut after = buffer.clone();
    let answer = normalise(&case.path, &mut after);
    let expected = list(&[answer.refusal, answer.written]);
    let (path, buffer) = (list(&case.path), list(&buffer));
    format!("normalised {path} {buffer} {expected} {}", list(&after))
}

fn printed(case: &ProgramCase) -> String {
    let output = program(&case.input);
    format!("printed {} {}", list(&case.input), list(&output))
}

fn is_small(case: &DecideCase) -> bool {
    case.file.len() <= LONGEST_FILE && case.path.len() <= LONGEST_PATH
}

/// Small ones of these, in this dialect: half of them such as are counted, and
/// half others.
fn halves(
    dialect: usize,
    cases: impl Iterator<Item = DecideCase>,
    counted: impl Fn(&Decision) -> bool,
) -> impl Iterator<Item = String> {
    let (counted, others): (Vec<_>, Vec<_>) = cases
        .filter(is_small)
        .take(10 * CASES)
        .partition(|case| counted(&answer(dialect, case)));
    let half = |cases: Vec<_>| cases.into_iter().take(CASES / 2);
    half(counted)
        .chain(half(others))
        .map(move |case| decided(dialect, &case))
}

/// Generated questions for deciding; half of them compare something.
fn decide_rows() -> impl Iterator<Item = String> {
    let cases = generator::decide_cases(SEED, DRAWN);
    halves(RFC9309, cases, |answer| answer.compared > 0)
}

/// Generated questions for the dialect of 1996; half of them are decided by a
/// rule.
fn draft_rows() -> impl Iterator<Item = String> {
    let cases = generator::draft_decide_cases(SEED, DRAWN);
    halves(DRAFT1996, cases, |answer| answer.line > 0)
}

/// Generated questions with each of the unknown dialects.
fn unknown_dialect_rows() -> impl Iterator<Item = String> {
    let small = generator::draft_decide_cases(SEED, DRAWN).filter(is_small);
    let numbered = UNKNOWN.into_iter().zip(small);
    numbered.map(|(dialect, case)| decided(dialect, &case))
}

/// Generated cases of the other sorts.
fn other_rows() -> impl Iterator<Item = String> {
    let matches = generator::match_cases(SEED, DRAWN)
        .filter(|case| case.pattern.len() <= LONGEST_PATH && case.path.len() <= LONGEST_PATH)
        .map(|case| matched(&case));
    let lines = generator::line_cases(SEED, DRAWN)
        .filter(|case| case.line.len() <= LONGEST_FILE)
        .map(|case| told(&case));
    let paths = generator::normalise_cases(SEED, DRAWN)
        .filter(|case| case.path.len() <= LONGEST_PATH && case.room <= 4 * LONGEST_PATH)
        .map(|case| normalised(&case));
    let inputs = generator::program_cases(SEED, DRAWN)
        .filter(|case| case.input.len() <= LONGEST_FILE)
        .map(|case| printed(&case));
    let matches_and_lines = matches.take(CASES).chain(lines.take(CASES));
    matches_and_lines
        .chain(paths.take(CASES))
        .chain(inputs.take(CASES))
}

/// The pattern as one rule's in the dialect of 1996.
fn draft_rule(pattern: Vec<u8>, path: Vec<u8>) -> String {
    let file = [b"user-agent:*\ndisallow:", pattern.as_slice()].concat();
    let name = b"a".to_vec();
    decided(DRAFT1996, &DecideCase { file, name, path })
}

/// Every octet as a name, as the last octet of a path, a pattern, a rule's
/// pattern and an agent's value, as the first of a pattern, a rule's pattern and
/// an agent's value, and behind a star. In the dialect of 1996 a rule's pattern
/// that ends with it is asked about the octet as it is and about its escape.
fn octet_rows() -> impl Iterator<Item = String> {
    (0..=u8::MAX).flat_map(|octet| {
        let after = |front: &[u8]| [front, &[octet]].concat();
        [
            decided(
                RFC9309,
                &DecideCase {
                    file: Vec::new(),
                    name: after(b""),
                    path: b"/".to_vec(),
                },
            ),
            draft_rule(after(b"/"), after(b"/")),
            draft_rule(after(b"/"), format!("/%{octet:02x}").into_bytes()),
            normalised(&NormaliseCase {
                path: after(b"/"),
                room: 5,
            }),
            matched(&MatchCase {
                pattern: after(b"/"),
                path: b"/".to_vec(),
            }),
            matched(&MatchCase {
                pattern: after(b""),
                path: b"/".to_vec(),
            }),
            matched(&MatchCase {
                pattern: after(b"*"),
                path: b"/".to_vec(),
            }),
            told(&LineCase {
                line: after(b"allow:/"),
            }),
            told(&LineCase {
                line: after(b"disallow:"),
            }),
            told(&LineCase {
                line: after(b"user-agent:"),
            }),
            told(&LineCase {
                line: after(b"user-agent:a"),
            }),
            told(&LineCase {
                line: after(b"user-agent:*"),
            }),
        ]
    })
}

/// Every octet as either digit of an escape, and every octet escaped.
fn escape_rows() -> impl Iterator<Item = String> {
    (0..=u8::MAX).flat_map(|octet| {
        let paths = [
            [b"/%", [octet].as_slice(), b"4"].concat(),
            [b"/%4", [octet].as_slice()].concat(),
            format!("/%{octet:02x}").into_bytes(),
        ];
        paths.map(|path| normalised(&NormaliseCase { path, room: 9 }))
    })
}

/// Patterns that hold every first octet of a longer character, with second
/// octets on both sides of every limit and up to two more. Behind "/" and
/// behind a star by turns.
fn character_rows() -> impl Iterator<Item = String> {
    let seconds = [0x7F, 0x80, 0x8F, 0x90, 0x9F, 0xA0, 0xBF, 0xC0];
    (0xC0..=u8::MAX).flat_map(move |first| {
        seconds.into_iter().flat_map(move |second| {
            [b"".as_slice(), b"\x80", b"\xBF\xBF"].map(|more| {
                let front = [b"/", b"*"][usize::from((first ^ second) % 2)];
                let pattern = [front, [first, second].as_slice(), more].concat();
                let path = b"/".to_vec();
                matched(&MatchCase { pattern, path })
            })
        })
    })
}

/// The statement that no case of these is wrong.
fn statement(index: usize, cases: &[String]) -> String {
    let rows = cases.join("\n    ∷ ");
    format!(
        "\nabbrev cases-{index} : List Case\ncases-{index} =\n    {rows}\n    ∷ []\n\n\
         agree-{index} : wrong 0 cases-{index} ≡ []\nunfolding computing\nagree-{index} = refl\n"
    )
}

/// All but the folders out/, in which rt keeps its work.
fn copy(from: &Path, to: &Path) {
    fs::create_dir_all(to).expect("a folder can be made");
    for entry in fs::read_dir(from).expect("a folder can be read") {
        let entry = entry.expect("an entry can be read");
        let target = to.join(entry.file_name());
        if entry.path().is_dir() {
            if entry.file_name() != "out" {
                copy(&entry.path(), &target);
            }
        } else {
            fs::copy(entry.path(), target).expect("a file can be copied");
        }
    }
}

fn write(path: PathBuf, text: &str) {
    fs::create_dir_all(path.parent().expect("a folder")).expect("a folder can be made");
    fs::write(path, text).expect("a file can be written");
}

/// A folder outside the repository, where rt would take its files for lost
/// ones. It goes when the test ends.
struct Folder(PathBuf);

impl Drop for Folder {
    fn drop(&mut self) {
        let _ = fs::remove_dir_all(&self.0);
    }
}

/// The folder with the crate of cases.
fn repository(proofs: &str) -> Folder {
    let name = format!("definitions-{}", std::process::id());
    let folder = Folder(std::env::temp_dir().join(name));
    let crates = Path::new(env!("CARGO_MANIFEST_DIR")).join("../../crates");
    for name in ["lists", "protocol"] {
        copy(&crates.join(name), &folder.0.join("crates").join(name));
    }
    let cases = folder.0.join("crates/cases");
    let root = "// Generated cases.\n\n#![tactic(auto)]\n";
    write(cases.join("src/lib.rt"), root);
    write(cases.join("proofs/Lib.antt"), "pub mod Generated\n");
    write(cases.join("proofs/Generated.antt"), proofs);
    let listed = "lists:\nprotocol: lists\ncases: lists protocol\n";
    write(folder.0.join("crates.txt"), listed);
    folder
}

#[test]
fn the_definitions_compute_what_the_evaluator_answers() {
    let decisions = decide_rows().chain(draft_rows());
    let generated: Vec<String> = decisions.chain(other_rows()).collect();
    assert_eq!(generated.len(), 6 * CASES);
    let systematic = octet_rows().chain(escape_rows()).chain(character_rows());
    let cases: Vec<String> = generated
        .into_iter()
        .chain(unknown_dialect_rows())
        .chain(systematic)
        .collect();
    let statements = cases.chunks(AT_ONCE).enumerate();
    let proofs: String = statements.map(|(at, some)| statement(at, some)).collect();
    let folder = repository(&format!("{HEAD}{proofs}"));
    let run = Command::new("rt")
        .arg("check")
        .current_dir(folder.0.join("crates/cases"))
        .output()
        .expect("rt can be run");
    let said = String::from_utf8_lossy(&run.stdout) + String::from_utf8_lossy(&run.stderr);
    assert!(run.status.success(), "rt check in crates/cases: {said}");
}
