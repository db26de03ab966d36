//! The table of refusals, one test for each number.

/// Why a question is refused. The discriminants are the table's numbers.
#[derive(Debug, Clone, Copy, PartialEq, Eq)]
pub(crate) enum Refusal {
    TooLong = 1,
    Name = 2,
    PathLength = 3,
    PathStart = 4,
    PathOctet = 5,
    Room = 6,
    InputTooLong = 7,
    Pattern = 8,
    LineEnding = 9,
    Ends = 12,
    Answers = 13,
    Dialect = 20,
}

impl Refusal {
    pub(crate) fn number(self) -> usize {
        self as usize
    }
}

const MOST_OCTETS: usize = 512_000;
const MOST_NAME: usize = 64;
const MOST_PATH: usize = 2_048;
const MOST_INPUT: usize = 65_536;

fn refuse_if(given: bool, refusal: Refusal) -> Result<(), Refusal> {
    if given {
        Err(refusal)
    } else {
        Ok(())
    }
}

/// 1: "file, pattern or line longer than 512,000 octets".
pub(crate) fn length(octets: &[u8]) -> Result<(), Refusal> {
    refuse_if(octets.len() > MOST_OCTETS, Refusal::TooLong)
}

/// 2: "name empty, over 64 octets, or with an octet other than A-Z a-z - _".
pub(crate) fn name(name: &[u8]) -> Result<(), Refusal> {
    let bad = name.is_empty() || name.len() > MOST_NAME || !name.iter().all(|o| is_name_octet(*o));
    refuse_if(bad, Refusal::Name)
}

/// 3, 4 and 5, in this order.
pub(crate) fn path(path: &[u8]) -> Result<(), Refusal> {
    refuse_if(
        path.is_empty() || path.len() > MOST_PATH,
        Refusal::PathLength,
    )?;
    refuse_if(path[0] != b'/', Refusal::PathStart)?;
    refuse_if(
        path.iter().any(|o| *o <= 0x20 || *o == b'#'),
        Refusal::PathOctet,
    )
}

/// 6: "normalised path longer than the lent buffer".
pub(crate) fn room(normal: &[u8], room: usize) -> Result<(), Refusal> {
    refuse_if(normal.len() > room, Refusal::Room)
}

/// 7: "program only: input over 65,536 octets".
pub(crate) fn input(input: &[u8]) -> Result<(), Refusal> {
    refuse_if(input.len() > MOST_INPUT, Refusal::InputTooLong)
}

/// 8: "pattern empty or unreadable".
pub(crate) fn pattern(readable: bool) -> Result<(), Refusal> {
    refuse_if(!readable, Refusal::Pattern)
}

/// 9: "line holds CR or LF".
pub(crate) fn line_ending(line: &[u8]) -> Result<(), Refusal> {
    refuse_if(
        line.contains(&b'\r') || line.contains(&b'\n'),
        Refusal::LineEnding,
    )
}

/// 12: "if the ends ever decrease or the last isn't the joined length (an empty
/// list needs length 0)" (document 02, M-101).
pub(crate) fn ends(ends: &[usize], joined: &[u8]) -> Result<(), Refusal> {
    let decrease = ends.windows(2).any(|pair| pair[1] < pair[0]);
    let last = ends.last().copied().unwrap_or(0);
    refuse_if(decrease || last != joined.len(), Refusal::Ends)
}

/// 13: "if an answer slice is shorter than the list" (M-101).
pub(crate) fn answers(list: &[usize], answers: &[&mut [usize]]) -> Result<(), Refusal> {
    let short = answers.iter().any(|slice| slice.len() < list.len());
    refuse_if(short, Refusal::Answers)
}

/// An octet of a crawler's name: "A-Z a-z - _".
pub(crate) fn is_name_octet(octet: u8) -> bool {
    octet.is_ascii_alphabetic() || octet == b'-' || octet == b'_'
}
