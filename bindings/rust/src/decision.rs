//! A whole decision in one call, and the dialects.

use crate::exported::{
    decide_compared, decide_disallow, decide_length, decide_line, decide_place, decide_refusal,
    decide_unread,
};
use std::error::Error;
use std::fmt;

/// Whose rules decide, with the number that the functions take.
#[derive(Clone, Copy, Debug, Default, PartialEq, Eq)]
pub enum Dialect {
    /// The heaviest match decides.
    #[default]
    Rfc9309 = 0,
    /// The first match in file order decides, and "*" and "$" stand for
    /// themselves.
    Draft1996 = 1,
}

/// What is decided for a file, a name and a path.
#[derive(Clone, Copy, Debug, PartialEq, Eq)]
pub struct Decision {
    pub disallow: bool,
    /// Of the rule that decided, from 1; 0 if none did.
    pub line: usize,
    /// Where that rule's raw pattern starts in the file; 0 if none decided.
    pub place: usize,
    /// How long that pattern is; 0 if none decided.
    pub length: usize,
    /// The unreadable agent and rule lines of the file.
    pub unread: usize,
    /// The pairs of octets that were compared.
    pub compared: usize,
}

/// Why a question is refused, with the number that the functions give.
#[derive(Clone, Copy, Debug, PartialEq, Eq)]
pub enum Refusal {
    Length = 1,
    Name = 2,
    PathLength = 3,
    PathStart = 4,
    PathOctet = 5,
    Room = 6,
    /// The program's only: no function gives it.
    Input = 7,
    Pattern = 8,
    Lines = 9,
    /// [`batch`](crate::batch())'s only, as the next one: to
    /// [`decide_all`](crate::decide_all) neither is given.
    Ends = 12,
    Answers = 13,
    /// No dialect of [`Dialect`] is ever refused: only a number can be.
    Dialect = 20,
}

impl Refusal {
    const ALL: [Refusal; 12] = [
        Refusal::Length,
        Refusal::Name,
        Refusal::PathLength,
        Refusal::PathStart,
        Refusal::PathOctet,
        Refusal::Room,
        Refusal::Input,
        Refusal::Pattern,
        Refusal::Lines,
        Refusal::Ends,
        Refusal::Answers,
        Refusal::Dialect,
    ];

    /// The refusal with this number. There is none for 0, which is
    /// "answered".
    pub fn from_number(number: usize) -> Option<Refusal> {
        Refusal::ALL
            .into_iter()
            .find(|refusal| *refusal as usize == number)
    }

    /// The refusal that a function gave, if it gave one.
    pub(crate) fn given(number: usize) -> Option<Refusal> {
        if number == 0 {
            return None;
        }
        Some(Refusal::from_number(number).expect("each number has its refusal"))
    }
}

impl fmt::Display for Refusal {
    fn fmt(&self, out: &mut fmt::Formatter<'_>) -> fmt::Result {
        write!(out, "refused {}", *self as usize)
    }
}

impl Error for Refusal {}

/// May the crawler `name` fetch `path`, by the rules in `file`? The RFC's
/// dialect decides. A refused path is to be left alone, as a disallowed one is.
///
/// It asks the library seven times. Who wants to know no more than allow or
/// disallow asks [`decide_disallow`], which is 1 for a refused question too.
pub fn decide(file: &[u8], name: &[u8], path: &[u8]) -> Result<Decision, Refusal> {
    decide_in(Dialect::Rfc9309, file, name, path)
}

/// The same in a dialect that is chosen.
pub fn decide_in(
    dialect: Dialect,
    file: &[u8],
    name: &[u8],
    path: &[u8],
) -> Result<Decision, Refusal> {
    let dialect = dialect as usize;
    if let Some(refusal) = Refusal::given(decide_refusal(dialect, file, name, path)) {
        return Err(refusal);
    }
    Ok(Decision {
        disallow: decide_disallow(dialect, file, name, path) != 0,
        line: decide_line(dialect, file, name, path),
        place: decide_place(dialect, file, name, path),
        length: decide_length(dialect, file, name, path),
        unread: decide_unread(dialect, file, name, path),
        compared: decide_compared(dialect, file, name, path),
    })
}
