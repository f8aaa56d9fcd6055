//! Both sides' answers in one form: plain numbers and bytes, and a refusal by its number.

use oracle::PowerlinkError;
use ostelumiv::Refusal;

/// Stands for an error of the repository that document 01 gives no number; no refusal has it.
const NO_NUMBER: u8 = 0;

pub fn ours<T>(answer: Result<T, Refusal>) -> Result<T, u8> {
    answer.map_err(Refusal::number)
}

/// The repository's errors by document 01's numbers.
pub fn theirs<T>(answer: Result<T, PowerlinkError>) -> Result<T, u8> {
    answer.map_err(|error| match error {
        PowerlinkError::BufferTooShort => 1,
        PowerlinkError::InvalidEnumValue => 2,
        PowerlinkError::SdoInvalidCommandPayload => 3,
        PowerlinkError::SdoSequenceError(_) => 4,
        PowerlinkError::ValidationError(_) => 5,
        _ => NO_NUMBER,
    })
}
