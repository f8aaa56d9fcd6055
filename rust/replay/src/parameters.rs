//! Timeout and retries: their ten bytes at the head of a trace that has one (for each a byte that says
//! whether it is present, and its number, low byte first), and the timeout where it is absent.

use oracle::ObjectDictionary;

pub const PARAMETER_BYTES: usize = 10;

/// In milliseconds.
const DEFAULT_TIMEOUT: u32 = 15_000;

pub fn read(bytes: &[u8; PARAMETER_BYTES]) -> ObjectDictionary {
    let [timeout_present, a, b, c, d, retries_present, e, f, g, h] = *bytes;
    let option = |present: u8, number| (present != 0).then(|| u32::from_le_bytes(number));
    ObjectDictionary {
        timeout: option(timeout_present, [a, b, c, d]),
        retries: option(retries_present, [e, f, g, h]),
    }
}

pub fn bytes(parameters: &ObjectDictionary) -> [u8; PARAMETER_BYTES] {
    let mut bytes = [0; PARAMETER_BYTES];
    let options = [parameters.timeout, parameters.retries];
    for (field, option) in bytes.chunks_exact_mut(5).zip(options) {
        if let Some(number) = option {
            field[0] = 1;
            field[1..].copy_from_slice(&number.to_le_bytes());
        }
    }
    bytes
}

/// The microseconds from a time to the deadline that is set then.
pub fn timeout(parameters: &ObjectDictionary) -> u64 {
    u64::from(parameters.timeout.unwrap_or(DEFAULT_TIMEOUT)) * 1_000
}

#[cfg(test)]
mod tests {
    use super::{bytes, read, timeout};
    use oracle::ObjectDictionary;

    #[test]
    fn present_and_absent() {
        let given = [1, 0x10, 0x27, 0, 0, 0, 9, 9, 9, 9];
        let parameters = read(&given);
        assert_eq!(parameters.timeout, Some(10_000));
        assert_eq!(parameters.retries, None);
        assert_eq!(bytes(&parameters), [1, 0x10, 0x27, 0, 0, 0, 0, 0, 0, 0]);
        assert_eq!(timeout(&parameters), 10_000_000);
        assert_eq!(timeout(&ObjectDictionary::default()), 15_000_000);
    }
}
