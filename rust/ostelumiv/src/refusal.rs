//! The refusals of document 01, "Numbers that refuse".

use crate::numbered::numbered;
use core::fmt;

numbered! {
    /// Why a call was refused. The codec gives 1, 2, 3 and 5; the others are the client's.
    pub enum Refusal {
        BufferTooShort = 1,
        InvalidEnumValue = 2,
        SdoInvalidCommandPayload = 3,
        Busy = 4,
        DcfTooShort = 5,
        TableFull = 6,
        NoRoom = 7,
        DeadlineRange = 8,
        WrongStore = 9,
        BadRecord = 10,
        ShortRecord = 11,
    }
}

/// Number and name, as in `1 BufferTooShort`.
impl fmt::Display for Refusal {
    fn fmt(&self, f: &mut fmt::Formatter<'_>) -> fmt::Result {
        write!(f, "{} {}", self.number(), self.name())
    }
}

impl core::error::Error for Refusal {}

/// Whether the library's number for an answer is that of a refusal.
#[inline]
pub(crate) fn accepted(number: u8) -> Result<(), Refusal> {
    match number {
        0 => Ok(()),
        _ => refused(number),
    }
}

/// The refusal of a number that is not 0: apart, so that a call that is not refused does not pay
/// for it.
#[cold]
#[inline(never)]
pub(crate) fn refused<T>(number: u8) -> Result<T, Refusal> {
    Err(Refusal::from_number(number).expect("ostelumiv.h promises 0 or the number of a refusal"))
}
