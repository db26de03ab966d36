//! The two dialects: the RFC's, and that of the draft of 1996.

use crate::refusal::Refusal;

/// "Add that dialect as a choice (1; 0 is the RFC's)" (document 02, M-113).
#[derive(Debug, Clone, Copy, PartialEq, Eq)]
pub(crate) enum Dialect {
    Rfc9309,
    Draft1996,
}

impl Dialect {
    /// "Refusals: 20 for an unknown dialect, first of all." (M-113)
    pub(crate) fn numbered(number: usize) -> Result<Dialect, Refusal> {
        match number {
            0 => Ok(Dialect::Rfc9309),
            1 => Ok(Dialect::Draft1996),
            _ => Err(Refusal::Dialect),
        }
    }
}
