//! Memory around a file, a name and a path, and the stack.

use std::thread;

use evaluator::{DRAFT1996, RFC9309};

use crate::deciding::{numbers_in, question_shown};
use crate::texts::{lengthened, slash_and, surrounded, MOST_FILE, MOST_PATH};

/// What could be taken for a part of a file, a name or a path, before and
/// behind it.
const NEIGHBOURS: [(&str, &str); 7] = [
    ("", ""),
    ("\u{feff}", "\n"),
    ("\r", "\nallow:/"),
    ("#", "#"),
    ("%", "41"),
    ("a", "a"),
    ("/", "$"),
];

const FILES: [&str; 10] = [
    "",
    "user-agent:a\ndisallow:/",
    "user-agent:a\ndisallow:/a\r",
    "user-agent:a",
    "disallow:/\nuser-agent:a/",
    "user-agent:*\nallow:/%",
    "\nuser-agent:a\ndisallow:",
    "user-agent:a\ndisallow:*",
    "user-agent:a\nallow:*a",
    "user-agent:a\ndisallow:/a$",
];

/// Names and paths.
const ASKED: [(&str, &str); 5] = [("a", "/"), ("a", "/a"), ("a", "/%"), ("", "/"), ("a", "")];

/// The answer is that of the question alone, where each of its parts stands
/// behind `start` octets between these two.
fn check_inside([file, name, path]: [&str; 3], (before, after): (&str, &str), start: usize) {
    let around = [file, name, path].map(|text| surrounded(text, before, after, start));
    let inside = |at: usize, text: &str| &around[at][start..start + text.len()];
    for dialect in [RFC9309, DRAFT1996] {
        let answer = numbers_in(dialect, inside(0, file), inside(1, name), inside(2, path));
        let (file, name, path) = (file.as_bytes(), name.as_bytes(), path.as_bytes());
        let alone = evaluator::decide_in(dialect, file, name, path);
        let message = question_shown(file, name, path);
        assert_eq!(answer, alone, "{message} at {start} behind {before:?}");
    }
}

/// File, name and path inside larger memory, from every place of a word: what
/// lies before and behind them isn't seen.
#[test]
fn memory_around_the_question_is_unseen() {
    for neighbours in NEIGHBOURS {
        for at in 0..8 {
            let start = neighbours.0.len() + at;
            for (file, (name, path)) in pairs() {
                check_inside([file, name, path], neighbours, start);
            }
        }
    }
}

fn pairs() -> impl Iterator<Item = (&'static str, (&'static str, &'static str))> {
    FILES
        .into_iter()
        .flat_map(|file| ASKED.map(|asked| (file, asked)))
}

/// One memory may be given three times, whole or in parts that overlap.
#[test]
fn the_question_in_one_memory() {
    let memory = b"/a\nuser-agent:a\ndisallow:/a/a";
    for start in 0..memory.len() {
        let name = &memory[14..15];
        for (file, path) in [
            (&memory[start..], &memory[..2]),
            (&memory[..start], &memory[start..]),
            (memory.as_slice(), &memory[start..]),
        ] {
            for name in [name, file, path] {
                for dialect in [RFC9309, DRAFT1996] {
                    let answer = numbers_in(dialect, file, name, path);
                    let expected = evaluator::decide_in(dialect, file, name, path);
                    assert_eq!(answer, expected, "{}", question_shown(file, name, path));
                }
            }
        }
    }
}

/// The stack of a thread: the 16 KiB that the header names, and room for the
/// thread and the test themselves. A call that needs far more ends the test
/// program.
const STACK: usize = 32 * 1_024;

/// The longest files need no more stack than others.
#[test]
fn a_small_stack_is_enough() {
    let path = slash_and(b'%', MOST_PATH);
    for (beginning, block) in [
        ("", "#"),
        ("", "\n"),
        ("", "user-agent:a\n"),
        ("user-agent:a\n", "disallow:/%\n"),
        ("user-agent:a\ndisallow:/", "%"),
        ("user-agent:a\ndisallow:/", "*%"),
        ("user-agent:a\ndisallow:", "*5"),
        ("", "user-agent:a\nallow:/*a\n"),
    ] {
        let file = lengthened(beginning.as_bytes(), block.as_bytes(), b"", MOST_FILE);
        for dialect in [RFC9309, DRAFT1996] {
            let expected = evaluator::decide_in(dialect, &file, b"a", &path);
            let answer = thread::scope(|scope| {
                thread::Builder::new()
                    .stack_size(STACK)
                    .spawn_scoped(scope, || numbers_in(dialect, &file, b"a", &path))
                    .expect("a thread can be started")
                    .join()
                    .expect("the thread ends")
            });
            assert_eq!(answer, expected, "{dialect}: {beginning:?} and {block:?}");
        }
    }
}
