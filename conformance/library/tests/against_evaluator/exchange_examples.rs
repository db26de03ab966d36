//! Each of M-108's conditions is needed: files that meet all but one, worked out
//! by hand. Exchanging the two parts changes the answer for the crawler a.

use evaluator::Decision;
use generator::Parts;

use crate::deciding::{check_decide, check_decision};
use crate::exchange_hypotheses::{
    broken, AGENT_LAST, FRONT_NOT_ENDED, FRONT_WITHOUT_RULE, MARK_TRAVELS, NOT_ENDED,
    REST_RULE_FIRST, RULE_FIRST,
};
use crate::support::MARK;

/// Decision, line, unread, compared.
type Answer = (&'static str, usize, usize, usize);

/// A file without a mark that breaks one condition, and the answers for the
/// crawler a on it and on the exchanged file.
struct Example {
    breaks: &'static str,
    /// Front, one, two and rest.
    parts: [&'static [u8]; 4],
    path: &'static [u8],
    before: Answer,
    after: Answer,
}

const EXAMPLES: [Example; 9] = [
    // without a rule line a's group goes on with b's: its rule is a's too
    Example {
        breaks: AGENT_LAST,
        parts: [
            b"",
            b"user-agent: a\n",
            b"user-agent: b\ndisallow: /\n",
            b"",
        ],
        path: b"/",
        before: ("disallow", 3, 0, 1),
        after: ("allow", 0, 0, 0),
    },
    // there is a rule line, but a's agent line behind it joins c's
    Example {
        breaks: AGENT_LAST,
        parts: [
            b"",
            b"user-agent: b\nallow: /\nuser-agent: a\n",
            b"user-agent: c\ndisallow: /\n",
            b"",
        ],
        path: b"/",
        before: ("disallow", 5, 0, 1),
        after: ("allow", 0, 0, 0),
    },
    // a rule in front of the part's first agent line belongs to a, then to nobody
    Example {
        breaks: RULE_FIRST,
        parts: [
            b"",
            b"user-agent: a\nallow: /x\n",
            b"disallow: /\nuser-agent: b\nallow: /x\n",
            b"",
        ],
        path: b"/y",
        before: ("disallow", 3, 0, 3),
        after: ("allow", 0, 0, 2),
    },
    // then "disallow: /user-agent: b" is unreadable, and b's rule is a's
    Example {
        breaks: NOT_ENDED,
        parts: [
            b"",
            b"user-agent: b\nallow: /\n",
            b"user-agent: a\ndisallow: /",
            b"",
        ],
        path: b"/",
        before: ("disallow", 4, 0, 1),
        after: ("allow", 3, 1, 1),
    },
    // the same the other way round
    Example {
        breaks: NOT_ENDED,
        parts: [
            b"",
            b"user-agent: a\ndisallow: /",
            b"user-agent: b\nallow: /\n",
            b"",
        ],
        path: b"/",
        before: ("allow", 3, 1, 1),
        after: ("disallow", 4, 0, 1),
    },
    // "allow: /cuser-agent: a" is unreadable, and nobody names a; then it is b
    Example {
        breaks: FRONT_NOT_ENDED,
        parts: [
            b"user-agent: c\nallow: /c",
            b"user-agent: a\ndisallow: /\n",
            b"user-agent: b\nallow: /\n",
            b"",
        ],
        path: b"/",
        before: ("allow", 0, 1, 0),
        after: ("disallow", 5, 1, 1),
    },
    // a's agent line joins b's group, then c's
    Example {
        breaks: FRONT_WITHOUT_RULE,
        parts: [
            b"user-agent: a\n",
            b"user-agent: b\ndisallow: /\n",
            b"user-agent: c\nallow: /\n",
            b"",
        ],
        path: b"/",
        before: ("disallow", 3, 0, 1),
        after: ("allow", 3, 0, 1),
    },
    // the octets are skipped at the file's beginning only: then no line names a
    Example {
        breaks: MARK_TRAVELS,
        parts: [
            b"",
            b"\xEF\xBB\xBFuser-agent: a\nuser-agent: b\ndisallow: /\n",
            b"user-agent: c\nallow: /\n",
            b"",
        ],
        path: b"/",
        before: ("disallow", 3, 0, 1),
        after: ("allow", 0, 0, 0),
    },
    // the rest's rule belongs to b, then to a
    Example {
        breaks: REST_RULE_FIRST,
        parts: [
            b"",
            b"user-agent: a\nallow: /x\n",
            b"user-agent: b\nallow: /x\n",
            b"disallow: /\n",
        ],
        path: b"/y",
        before: ("allow", 0, 0, 2),
        after: ("disallow", 5, 0, 3),
    },
];

fn parts(mark: &[u8], [front, one, two, rest]: [&[u8]; 4]) -> Parts {
    Parts {
        mark: mark.to_vec(),
        front: front.to_vec(),
        one: one.to_vec(),
        two: two.to_vec(),
        rest: rest.to_vec(),
    }
}

/// The answer of library and evaluator to the crawler a.
fn answer(file: &[u8], path: &[u8]) -> Answer {
    let answer = check_decide(file, b"a", path);
    assert_eq!(answer.refusal, 0);
    let word = ["allow", "disallow"][usize::from(answer.disallow)];
    (word, answer.line, answer.unread, answer.compared)
}

#[test]
fn each_condition_is_needed() {
    for (number, example) in (1..).zip(&EXAMPLES) {
        let parts = parts(b"", example.parts);
        assert_eq!(broken(&parts), [example.breaks], "example {number}");
        let before = answer(&parts.file(), example.path);
        assert_eq!(before, example.before, "example {number}");
        let after = answer(&parts.exchanged(), example.path);
        assert_eq!(after, example.after, "example {number}, exchanged");
        assert_ne!(before.0, after.0, "example {number}");
    }
}

/// The examples break every condition.
#[test]
fn no_condition_is_left_out() {
    for condition in [
        MARK_TRAVELS,
        FRONT_NOT_ENDED,
        FRONT_WITHOUT_RULE,
        RULE_FIRST,
        AGENT_LAST,
        NOT_ENDED,
        REST_RULE_FIRST,
    ] {
        let is_broken = EXAMPLES.iter().any(|one| one.breaks == condition);
        assert!(is_broken, "{condition}");
    }
}

/// All conditions are met, and both files disallow. "/x" and "*y" are equally
/// heavy, and the earlier one is named. Where a part's CR stands in front of the
/// next one's LF, both are one ending: so the blank line in front of the remark is
/// gone in the exchanged file.
#[test]
fn an_exchange_that_keeps_disallow() {
    let parts = parts(
        MARK,
        [
            b"user-agent: *\r\nallow: /\r\n",
            b"\n# one\r\nuser-agent: a\rdisallow: /x\r",
            b"user-agent: A/2.1\ndisallow: *y\nallow: xy\nallow: /\r",
            b"\nuser-agent: c\nallow: /xy",
        ],
    );
    assert!(broken(&parts).is_empty());
    // "/x" compares 2 pairs, "*y" 3 and "/" 1; "xy" is unreadable
    let before = Decision {
        refusal: 0,
        disallow: true,
        line: 6,
        place: 60,
        length: 2,
        unread: 1,
        compared: 6,
    };
    let after = Decision {
        line: 4,
        place: 56,
        ..before
    };
    check_decision((&parts.file(), b"a", b"/xy"), before);
    check_decision((&parts.exchanged(), b"a", b"/xy"), after);
}
