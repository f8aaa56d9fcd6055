//! What stands ahead of the records of replay_states: ten bytes of parameters, and one of modes.

use crate::parameters::{self, PARAMETER_BYTES};
use oracle::ObjectDictionary;

pub const HEAD_BYTES: usize = PARAMETER_BYTES + 1;

/// How the client is run, a bit of the eleventh byte each.
#[derive(Debug, Clone, Copy, Default, PartialEq, Eq)]
pub struct Modes {
    /// Every start is in published mode (document 02, CR 2).
    pub published: bool,
}

const PUBLISHED: u8 = 1;
/// Our program says the same.
const OTHER_BITS: &str = "the eleventh byte ahead of the records must be 0 or 1";

impl Modes {
    pub const REPOSITORY: Self = Self { published: false };
    pub const PUBLISHED: Self = Self { published: true };

    fn read(byte: u8) -> Result<Self, &'static str> {
        if byte & !PUBLISHED != 0 {
            return Err(OTHER_BITS);
        }
        Ok(Self {
            published: byte & PUBLISHED != 0,
        })
    }

    fn byte(self) -> u8 {
        u8::from(self.published) * PUBLISHED
    }
}

#[derive(Debug, Clone, Copy, Default)]
pub struct Head {
    pub parameters: ObjectDictionary,
    pub modes: Modes,
}

impl Head {
    /// Those of the programs that take no head: both parameters absent, repository mode.
    pub fn is_plain(&self) -> bool {
        self.bytes() == [0; HEAD_BYTES]
    }

    pub fn read(bytes: &[u8; HEAD_BYTES]) -> Result<Self, &'static str> {
        let [ahead @ .., modes] = bytes;
        Ok(Self {
            parameters: parameters::read(ahead),
            modes: Modes::read(*modes)?,
        })
    }

    pub fn bytes(&self) -> [u8; HEAD_BYTES] {
        let mut bytes = [0; HEAD_BYTES];
        bytes[..PARAMETER_BYTES].copy_from_slice(&parameters::bytes(&self.parameters));
        bytes[PARAMETER_BYTES] = self.modes.byte();
        bytes
    }
}

#[cfg(test)]
mod tests {
    use super::{Head, Modes, OTHER_BITS};

    #[test]
    fn the_bytes_that_were_read_are_written() {
        for bytes in [
            [0; 11],
            [0, 0, 0, 0, 0, 0, 0, 0, 0, 0, 1],
            [1, 3, 0, 0, 0, 1, 0, 0, 0, 0, 0],
            [1, 255, 255, 255, 255, 1, 1, 0, 0, 0, 1],
        ] {
            let head = Head::read(&bytes).unwrap();
            assert_eq!(head.bytes(), bytes);
            assert_eq!(head.is_plain(), bytes == [0; 11]);
            assert_eq!(head.modes.published, bytes[10] == 1);
        }
    }

    #[test]
    fn other_bits_are_refused() {
        for byte in 2..=u8::MAX {
            assert_eq!(Modes::read(byte), Err(OTHER_BITS));
        }
    }
}
