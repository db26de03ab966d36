//! "exchanging two neighbouring groups, each with at least one rule line, of any
//! readability, and each line ended, leaves allow or disallow as it was for every
//! name and path" (document 02, M-108)

use evaluator::Decision;
use generator::{Parts, Question, SEED};

use crate::ask::shown;
use crate::deciding::{check_decide, question_shown, refused};
use crate::exchange_answers::Answered;
use crate::exchange_hypotheses::broken;
use crate::exchange_rows::{of_exchange, Rows};
use crate::texts::{lengthened, MOST_FILE};

const EXCHANGES: usize = 55_000;

/// What no exchange changes: refusal, side, unread and compared count. The
/// deciding line and the octets of its pattern may change.
fn kept(answer: &Decision) -> [usize; 4] {
    let side = usize::from(answer.disallow);
    [answer.refusal, side, answer.unread, answer.compared]
}

/// Library and evaluator agree on each file, and their answers are alike; gives
/// both.
fn check_exchange(files: &[Vec<u8>; 2], question: &Question) -> [Decision; 2] {
    let Question { name, path } = question;
    let answers = [0, 1].map(|at| check_decide(&files[at], name, path));
    assert_eq!(
        kept(&answers[0]),
        kept(&answers[1]),
        "refusal, disallow, unread and compared, {}, and exchanged {}",
        question_shown(&files[0], name, path),
        shown(&files[1])
    );
    answers
}

/// Both answers are well represented, and so is all that matters.
#[test]
fn many_exchanges() {
    let mut rows = Rows::default();
    for case in generator::exchange_cases(SEED, EXCHANGES) {
        let files = [case.parts.file(), case.parts.exchanged()];
        if files[0] == files[1] {
            continue;
        }
        rows.add(of_exchange(&case));
        for question in &case.questions {
            let answers = check_exchange(&files, question);
            let answered = Answered {
                question,
                files: &files,
                answers,
            };
            rows.add(answered.sorts());
            rows.add(answered.deciding(&case.parts));
        }
    }
    rows.finish();
    let exchanges = rows.count("exchanges");
    assert!(exchanges >= 50_000, "{exchanges} exchanges");
    let answered = rows.count("answered");
    for side in ["allow", "disallow"] {
        let count = rows.count(side);
        println!("{side}: {} % of {answered}", 100 * count / answered);
        assert!(10 * count >= 3 * answered, "{side}: {count} of {answered}");
    }
}

/// The generated parts are those that M-108 speaks of.
#[test]
fn the_parts_may_be_exchanged() {
    for case in generator::exchange_cases(SEED, EXCHANGES) {
        let broken = broken(&case.parts);
        let file = case.parts.file();
        assert!(broken.is_empty(), "{broken:?}: {}", shown(&file));
    }
}

/// A file of 512,000 octets, most of them remarks in front of a group, is
/// answered on both sides, and one of 512,001 is refused.
#[test]
fn the_longest_files() {
    let question = Question {
        name: b"a".to_vec(),
        path: b"/xy".to_vec(),
    };
    let one = b"user-agent: a\ndisallow: /x\n".to_vec();
    let end = b"\nuser-agent: A\nallow: /\ndisallow: *y\r";
    let both = [MOST_FILE, MOST_FILE + 1].map(|length| {
        let parts = Parts {
            mark: Vec::new(),
            front: Vec::new(),
            one: one.clone(),
            two: lengthened(b"", b"# x\n", end, length - one.len()),
            rest: Vec::new(),
        };
        assert!(broken(&parts).is_empty(), "{length}");
        check_exchange(&[parts.file(), parts.exchanged()], &question)
    });
    // "/x" compares 2 pairs, "/" 1 and "*y" 3
    assert_eq!(both[0].map(|answer| kept(&answer)), [[0, 1, 0, 6]; 2]);
    assert_eq!(both[1], [refused(1); 2]);
}
