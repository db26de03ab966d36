//! The columns "printed" and "answer".

use crate::octets::{pattern_place, unescape};
use crate::{Decision, Expected, LineKind, Matched, Normalised, Printed, KINDS};

/// An answer column: a refusal, or words of which the last are numbers.
enum Column<'a, const N: usize> {
    Refused(usize),
    Answered(&'a str, [usize; N]),
}

pub fn printed_decision(text: &str) -> Result<Printed, String> {
    match text {
        "allow" => Ok(Printed::Allow),
        "disallow" => Ok(Printed::Disallow),
        "undefined" => Ok(Printed::Undefined),
        _ => Err(format!("no decision: {text}")),
    }
}

pub fn printed_match(text: &str) -> Result<Printed, String> {
    yes_or_no(text).map(Printed::Matches)
}

pub fn printed_path(text: &str) -> Result<Printed, String> {
    unescape(text).map(Printed::Normalised)
}

pub fn printed_kind(text: &str) -> Result<Printed, String> {
    kind(text).map(Printed::Kind)
}

/// Decision, line, unread and compared, with the deciding pattern.
pub fn decision(text: &str, pattern: &str, file: &[u8]) -> Result<Expected, String> {
    let mut whole = Decision {
        refusal: 0,
        disallow: true,
        line: 0,
        place: 0,
        length: 0,
        unread: 0,
        compared: 0,
    };
    match column(text)? {
        Column::Refused(number) => whole.refusal = number,
        Column::Answered(word, [line, unread, compared]) => {
            whole.disallow = printed_decision(word)? == Printed::Disallow;
            if word == "undefined" {
                return Err("document 01 leaves no decision undefined".to_string());
            }
            (whole.line, whole.unread, whole.compared) = (line, unread, compared);
        }
    }
    if (whole.line == 0) != (pattern == "-") {
        return Err("line and deciding pattern don't go together".to_string());
    }
    if whole.line != 0 {
        let octets = unescape(pattern)?;
        whole.place = pattern_place(file, whole.line, &octets)?;
        whole.length = octets.len();
    }
    Ok(Expected::Decide(whole))
}

/// "yes" or "no" and the count.
pub fn matched(text: &str) -> Result<Expected, String> {
    let (refusal, found, compared) = match column(text)? {
        Column::Refused(number) => (number, false, 0),
        Column::Answered(word, [compared]) => (0, yes_or_no(word)?, compared),
    };
    Ok(Expected::Match(Matched {
        refusal,
        found,
        compared,
    }))
}

/// The normalised path.
pub fn normalised(text: &str) -> Result<Expected, String> {
    let (refusal, octets) = match column::<0>(text)? {
        Column::Refused(number) => (number, Vec::new()),
        Column::Answered(word, []) => (0, unescape(word)?),
    };
    Ok(Expected::Normalise(Normalised { refusal, octets }))
}

/// Kind, place and length.
pub fn line_kind(text: &str) -> Result<Expected, String> {
    let (refusal, kind, place, length) = match column(text)? {
        Column::Refused(number) => (number, 0, 0, 0),
        Column::Answered(word, [place, length]) => (0, kind(word)?, place, length),
    };
    Ok(Expected::Line(LineKind {
        refusal,
        kind,
        place,
        length,
    }))
}

fn column<const N: usize>(text: &str) -> Result<Column<'_, N>, String> {
    let mut words = text.split_whitespace();
    let first = words.next().ok_or("an empty answer")?;
    let numbers = words.map(number).collect::<Result<Vec<usize>, String>>()?;
    if first == "refused" {
        return match numbers[..] {
            [refusal] if refusal > 0 => Ok(Column::Refused(refusal)),
            _ => Err("refused wants one number above 0".to_string()),
        };
    }
    let numbers = <[usize; N]>::try_from(numbers);
    let numbers = numbers.map_err(|got| format!("{} numbers, not {N}", got.len()))?;
    Ok(Column::Answered(first, numbers))
}

fn number(text: &str) -> Result<usize, String> {
    text.parse().map_err(|_| format!("no number: {text}"))
}

fn yes_or_no(text: &str) -> Result<bool, String> {
    match text {
        "yes" => Ok(true),
        "no" => Ok(false),
        _ => Err(format!("neither yes nor no: {text}")),
    }
}

fn kind(text: &str) -> Result<usize, String> {
    let found = KINDS.iter().skip(1).position(|name| *name == text);
    found
        .map(|place| place + 1)
        .ok_or_else(|| format!("no kind of line: {text}"))
}
