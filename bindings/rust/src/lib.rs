//! Questions about robots.txt files (RFC 9309, and the draft of 1996): the
//! library's exported functions as safe functions on slices, one to one;
//! [`decide`] and [`decide_in`], which ask for a whole decision; and
//! [`decide_all`], which asks about a list of paths.
//!
//! `include/robots.h` says what each function answers, and names the numbers.
//! A slice gives what the header asks for: its octets are initialised and may
//! be read, and a lent buffer overlaps nothing and is used by nobody else.

mod batch;
mod decision;
mod exported;

pub use batch::{decide_all, Answer};
pub use decision::{decide, decide_in, Decision, Dialect, Refusal};
pub use exported::{
    batch, decide_compared, decide_disallow, decide_length, decide_line, decide_place,
    decide_refusal, decide_unread, line_kind, line_length, line_place, line_refusal,
    match_compared, match_found, match_refusal, normalise, normalise_refusal,
};
