//! A stand-in for the repository's object dictionary: the client asks it for two parameters.

use crate::sdo::{OD_IDX_SDO_RETRIES, OD_IDX_SDO_TIMEOUT};

/// What hal.rs takes from this module, in a trait that the client does not use.
pub use crate::unused::ObjectValue;

/// The two parameters, each present or absent.
#[derive(Debug, Clone, Copy, Default)]
pub struct ObjectDictionary {
    /// Object 0x1300, in milliseconds.
    pub timeout: Option<u32>,
    /// Object 0x1302.
    pub retries: Option<u32>,
}

impl ObjectDictionary {
    pub fn read_u32(&self, index: u16, sub_index: u8) -> Option<u32> {
        match (index, sub_index) {
            (OD_IDX_SDO_TIMEOUT, 0) => self.timeout,
            (OD_IDX_SDO_RETRIES, 0) => self.retries,
            _ => None,
        }
    }
}
