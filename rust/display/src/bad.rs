//! Why a line, or a DCF, could not be shown.

use ostelumiv::Refusal;
use std::fmt;

#[derive(Debug, PartialEq, Eq)]
pub enum Bad {
    /// The text is none: what was expected of it.
    Expected(&'static str),
    /// The bytes are no SDO frame, or too many: what was expected of them, and what they are.
    Found(&'static str, String),
    /// The codec's answer to the frame or the DCF.
    Refused(Refusal),
}

impl From<Refusal> for Bad {
    fn from(refusal: Refusal) -> Self {
        Self::Refused(refusal)
    }
}

impl fmt::Display for Bad {
    fn fmt(&self, f: &mut fmt::Formatter<'_>) -> fmt::Result {
        match self {
            Self::Expected(expected) => write!(f, "expected {expected}"),
            Self::Found(expected, found) => write!(f, "expected {expected}; found {found}"),
            Self::Refused(refusal) => write!(f, "refused {refusal}"),
        }
    }
}
