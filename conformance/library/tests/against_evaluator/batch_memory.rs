//! Long lists and long paths, memory around the parts of a list, and the stack.

use std::thread;

use evaluator::RFC9309;
use generator::BatchCase;

use crate::batch::{refused, BOTH, FREE};
use crate::batching::{ask_in_place, asked, check_answers, evaluated, lent, list_of, list_shown};
use crate::texts::{lengthened, slash_and, MOST_FILE, MOST_PATH};

/// The joined paths may be longer than a file may be, and so may one of them,
/// which is refused for itself.
#[test]
fn long_paths_and_long_lists() {
    let file = b"user-agent: *\ndisallow: /";
    let (longest, over) = (slash_and(b'%', MOST_PATH), slash_and(b'%', MOST_PATH + 1));
    let (shut, three) = ([0, 1, 2], refused(3));
    for dialect in BOTH {
        let list = list_of(dialect, file, &[longest.as_slice(); 400]);
        assert!(list.paths.len() > MOST_FILE);
        check_answers(&list, &[shut; 400]);
        let far_over = slash_and(b'a', MOST_FILE + 1);
        let list = [&longest, &over, &longest, &far_over, &longest];
        let list = list.map(|path| path.as_slice());
        let expected = [shut, three, shut, three, shut];
        check_answers(&list_of(dialect, file, &list), &expected);
    }
    let list = vec![b"/".as_slice(); 100_000];
    check_answers(&list_of(RFC9309, b"", &list), &vec![FREE; 100_000]);
}

/// What a file, a name and joined paths could be taken to go on with, and what
/// ends could.
const BEHIND: [&[u8]; 6] = [b"41", b"#", b" ", b"/a", b"\nallow:/", b"$"];
const ENDS_BEHIND: [usize; 3] = [0, 1, usize::MAX];

/// The call's answers are the same where each part stands inside larger memory,
/// from any place of a word, and what lies around the answers stays.
pub fn check_inside(case: &BatchCase, index: usize) {
    let at = index % 8 + 1;
    let behind = BEHIND[index % BEHIND.len()];
    let parts = [&case.file, &case.name, &case.paths];
    let octets = parts.map(|part| [&b"%%%%%%%%"[..at], part, behind].concat());
    let inside = [0, 1, 2].map(|part| &octets[part][at..at + parts[part].len()]);
    let others = [ENDS_BEHIND[index % ENDS_BEHIND.len()]; 8];
    let ends = [&others[..at], &case.ends, &others].concat();
    let ends = &ends[at..at + case.ends.len()];
    let larger = case.lengths.map(|length| at + length + 2);
    let mut slices = lent(larger);
    let [refusals, sides, lines] = &mut slices;
    let [first, second, third] = case.lengths.map(|length| at..at + length);
    let answers = [&mut refusals[first], &mut sides[second], &mut lines[third]];
    let refusal = ask_in_place(case.dialect, inside, ends, answers);
    let (alone, answers) = asked(case);
    assert_eq!(refusal, alone, "inside, {index}: {}", list_shown(case));
    let written = if refusal == 0 { case.ends.len() } else { 0 };
    let mut expected = lent(larger);
    for (slice, answers) in expected.iter_mut().zip(&answers) {
        slice[at..at + written].copy_from_slice(&answers[..written]);
    }
    assert!(slices == expected, "inside, {index}: {}", list_shown(case));
}

/// Lists whose last path could go on, and a refused call.
#[test]
fn memory_around_the_list_is_unseen() {
    let file = b"user-agent: a\ndisallow: /a$\nallow: /aA\ndisallow: /a/a";
    let shut = [0, 1, 2];
    let list: [&[u8]; 3] = [b"/a%", b"41", b"/a"];
    let case = list_of(RFC9309, file, &list);
    check_answers(&case, &[FREE, refused(4), shut]);
    for index in 0..48 {
        for end in ["/a", "/a%4", "/a%", "/robots.txt", "", "/ ", "a"] {
            let list = [list.as_slice(), &[end.as_bytes()]].concat();
            for dialect in [0, 1, 2] {
                check_inside(&list_of(dialect, file, &list), index);
            }
        }
        check_inside(&list_of(RFC9309, file, &[]), index);
    }
}

/// One memory may be given three times, whole or in parts that overlap.
#[test]
fn the_list_in_one_memory() {
    let memory = b"/a/b\nuser-agent:a\ndisallow:/a/a";
    for start in 0..memory.len() {
        for (file, paths) in [
            (&memory[start..], &memory[..4]),
            (&memory[..start], &memory[start..]),
            (memory.as_slice(), &memory[start..]),
        ] {
            for name in [&memory[16..17], file, paths] {
                let ends = [paths.len() / 2, paths.len()];
                check_one_memory([file, name, paths], &ends);
            }
        }
    }
}

fn check_one_memory(parts: [&[u8]; 3], ends: &[usize]) {
    for dialect in BOTH {
        let mut answers = lent([3; 3]);
        let slices = answers.each_mut().map(|slice| &mut **slice);
        let refusal = ask_in_place(dialect, parts, ends, slices);
        let mut expected = lent([3; 3]);
        let slices = expected.each_mut().map(|slice| &mut **slice);
        let [file, name, paths] = parts;
        let due = evaluator::batch(dialect, file, name, paths, ends, slices);
        assert_eq!((refusal, answers), (due, expected), "{parts:?}, {ends:?}");
    }
}

/// The stack of a thread: the 40 KiB that the header names, and room for the
/// thread and the test themselves. A call that needs far more ends the test
/// program.
const STACK: usize = 56 * 1_024;

/// The longest files and paths need no more stack than others.
#[test]
fn a_small_stack_is_enough() {
    let (longest, plain) = (slash_and(b'%', MOST_PATH), slash_and(b'a', MOST_PATH));
    let list = [longest.as_slice(), b"", &plain, b"/%", b"a", b"/robots.txt"];
    for (beginning, block) in [
        ("", ""),
        ("", "#"),
        ("", "user-agent:a\n"),
        ("user-agent:a\n", "disallow:/%\n"),
        ("user-agent:a\ndisallow:/", "%"),
        ("user-agent:a\ndisallow:/", "*%"),
        ("", "user-agent:a\nallow:/*a\n"),
    ] {
        let length = if block.is_empty() { 0 } else { MOST_FILE };
        let file = lengthened(beginning.as_bytes(), block.as_bytes(), b"", length);
        for dialect in BOTH {
            let case = list_of(dialect, &file, &list);
            let answered = thread::scope(|scope| {
                thread::Builder::new()
                    .stack_size(STACK)
                    .spawn_scoped(scope, || asked(&case))
                    .expect("a thread can be started")
                    .join()
                    .expect("the thread ends")
            });
            assert_eq!(answered, evaluated(&case), "{dialect}: {block:?}");
        }
    }
}
