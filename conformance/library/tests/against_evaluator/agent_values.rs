//! Generated values of agent lines: the line's kind, and who is named.

use std::collections::HashSet;

use generator::SEED;

use crate::ask::{check_line, shown};
use crate::deciding::{check_decide, question_shown};
use crate::texts::{is_name_octet, name_of, MOST_NAME};

const VALUES: usize = 130_000;

/// How many of each sort there are.
#[derive(Debug, Default)]
struct Seen {
    /// Lines that are refused for a CR or LF in the value.
    refused: usize,
    unread: usize,
    everyone: usize,
    name_alone: usize,
    name_and_more: usize,
    /// Names that no crawler may have, for their length.
    too_long: usize,
    /// Decided by the rule of the value's group, and by the rule for everyone.
    met: usize,
    unmet: usize,
}

/// The "*" group closes nothing, and the value's group the path that is asked.
fn file_of(value: &[u8]) -> Vec<u8> {
    [
        b"user-agent: *\nallow: /\nuser-agent: ",
        value,
        b"\ndisallow: /x\n",
    ]
    .concat()
}

/// The first name in the text, at its beginning or not; the same with the case
/// of its letters changed, one octet shorter and one longer; and another one.
/// Those that a crawler may have.
fn asked(text: &[u8]) -> Vec<Vec<u8>> {
    let mut names = text.split(|octet| !is_name_octet(*octet));
    let name = names.find(|name| !name.is_empty()).unwrap_or(b"");
    let other_case = |octet: &u8| match octet.is_ascii_alphabetic() {
        true => octet ^ 0x20,
        false => *octet,
    };
    let shorter = &name[..name.len().saturating_sub(1)];
    let names = [
        name.to_vec(),
        name.iter().map(other_case).collect(),
        shorter.to_vec(),
        [name, b"x"].concat(),
        b"another-bot".to_vec(),
    ];
    let may = |name: &Vec<u8>| (1..=MOST_NAME).contains(&name.len());
    names.into_iter().filter(may).collect()
}

/// Whom the value names: "*", a name, or nobody. Asks for the line's kind.
fn told<'a>(text: &'a [u8], seen: &mut Seen) -> Option<&'a [u8]> {
    let line = [b"user-agent:", text].concat();
    let told = check_line(&line);
    // a line of a file ends there
    if told.refusal == 9 {
        seen.refused += 1;
        return None;
    }
    let value = &text[told.place.saturating_sub(b"user-agent:".len())..][..told.length];
    let name = if value == b"*" { value } else { name_of(value) };
    let kind = if name.is_empty() { 5 } else { 4 };
    assert_eq!((told.refusal, told.kind), (0, kind), "{}", shown(&line));
    let count = match name {
        b"" => &mut seen.unread,
        b"*" => &mut seen.everyone,
        _ if name.len() == value.len() => &mut seen.name_alone,
        _ => &mut seen.name_and_more,
    };
    *count += 1;
    seen.too_long += usize::from(name.len() > MOST_NAME);
    Some(name)
}

/// Every octet stands first, in the middle and last, and every sort of value
/// and of answer is well represented.
#[test]
fn many_generated_values() {
    let mut seen = Seen::default();
    let mut distinct = HashSet::new();
    let mut octets = [[0; 3]; 256];
    for text in generator::agent_values(SEED, VALUES) {
        if let [first, middle @ .., last] = text.as_slice() {
            octets[usize::from(*first)][0] += 1;
            for octet in middle {
                octets[usize::from(*octet)][1] += 1;
            }
            octets[usize::from(*last)][2] += 1;
        }
        let (file, named) = (file_of(&text), told(&text, &mut seen));
        for name in asked(&text) {
            let answer = check_decide(&file, &name, b"/x");
            let Some(named) = named else {
                continue;
            };
            let meets = named == b"*" || named.eq_ignore_ascii_case(&name);
            let expected = (
                meets,
                if meets { 4 } else { 2 },
                usize::from(named.is_empty()),
            );
            assert_eq!(
                (answer.disallow, answer.line, answer.unread),
                expected,
                "{}",
                question_shown(&file, &name, b"/x")
            );
            seen.met += usize::from(meets);
            seen.unmet += usize::from(!meets);
        }
        distinct.insert(text);
    }
    println!("{seen:?}, {} values", distinct.len());
    assert!(distinct.len() >= 100_000, "{} values", distinct.len());
    for (octet, counts) in octets.iter().enumerate() {
        assert!(
            counts.iter().all(|count| *count >= 50),
            "{octet:#04X}: {counts:?}"
        );
    }
    for (sort, count, least) in [
        ("refused", seen.refused, 500),
        ("unread", seen.unread, 10_000),
        ("everyone", seen.everyone, 1_000),
        ("a name alone", seen.name_alone, 10_000),
        ("a name and more", seen.name_and_more, 40_000),
        ("too long", seen.too_long, 2_000),
        ("met", seen.met, 100_000),
        ("unmet", seen.unmet, 100_000),
    ] {
        assert!(count >= least, "{sort}: {count}, less than {least}");
    }
}
