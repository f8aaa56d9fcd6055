//! A record of a trace (document 01, "Replay"): 32 bytes, numbers low byte first. Where something stands
//! in it, and what an operation looks at, is said here alone.

use std::ops::Range;

pub const RECORD_BYTES: usize = 32;
/// How many records are read of a trace; bytes past them are not looked at.
pub const MOST_RECORDS: u32 = 65_535;
/// The most data bytes that a record holds.
pub const MOST_DATA: usize = 16;

/// The marks in the flags of a reply.
pub const RESPONSE: u8 = 0x10;
pub const ABORT: u8 = 0x20;

/// Where a record has its operation, the length of its data, its time, the byte that nobody looks at, its data.
pub const OPERATION: usize = 0;
pub const LENGTH: usize = 5;
pub const TIME: Range<usize> = 6..14;
pub const SPARE: usize = 15;
pub const DATA: usize = 16;

/// A record as it stands in the trace.
pub type RecordBytes = [u8; RECORD_BYTES];

#[derive(Debug, Clone, Copy, PartialEq, Eq)]
#[repr(u8)]
pub enum Operation {
    Write = 1,
    Read = 2,
    Dcf = 3,
    Reply = 4,
    Tick = 5,
    Ask = 6,
    Gather = 7,
}

impl Operation {
    fn of(number: u8) -> Option<Self> {
        Some(match number {
            1 => Self::Write,
            2 => Self::Read,
            3 => Self::Dcf,
            4 => Self::Reply,
            5 => Self::Tick,
            6 => Self::Ask,
            7 => Self::Gather,
            _ => return None,
        })
    }

    pub fn takes_data(self) -> bool {
        !matches!(self, Self::Read | Self::Tick | Self::Ask)
    }

    /// What it does not look at ahead of the spare byte.
    fn unused(self) -> &'static [Range<usize>] {
        match self {
            Self::Write | Self::Read => &[14..15],
            Self::Dcf => &[2..5, 14..15],
            Self::Reply => &[4..5, 6..14],
            Self::Tick | Self::Ask => &[1..5, 14..15],
            Self::Gather => &[1..5, 6..15],
        }
    }
}

#[derive(Debug, Clone, Copy, PartialEq, Eq)]
pub struct Record<'a> {
    pub operation: Operation,
    pub node: u8,
    /// Bytes 2 and 3: an index, and in a reply the sequence octets 0 and 1.
    pub index: u16,
    pub sub_index: u8,
    pub time: u64,
    pub flags: u8,
    pub data: &'a [u8],
}

impl<'a> Record<'a> {
    /// A record with the fields that every operation may leave at 0.
    pub fn new(operation: Operation, node: u8, time: u64, data: &'a [u8]) -> Self {
        Self {
            operation,
            node,
            index: 0,
            sub_index: 0,
            time,
            flags: 0,
            data,
        }
    }

    /// None is a BadRecord.
    pub fn read(bytes: &'a RecordBytes) -> Option<Self> {
        let operation = Operation::of(bytes[OPERATION])?;
        let length = usize::from(bytes[LENGTH]);
        if length > MOST_DATA {
            return None;
        }
        let mut time = [0; 8];
        time.copy_from_slice(&bytes[TIME]);
        Some(Self {
            operation,
            node: bytes[1],
            index: u16::from_le_bytes([bytes[2], bytes[3]]),
            sub_index: bytes[4],
            time: u64::from_le_bytes(time),
            flags: bytes[14],
            data: &bytes[DATA..DATA + length],
        })
    }

    /// The record as bytes, with zeros where it has nothing to say. Its data fit.
    pub fn bytes(&self) -> RecordBytes {
        let mut bytes = [0; RECORD_BYTES];
        bytes[OPERATION] = self.operation as u8;
        bytes[1] = self.node;
        bytes[2..4].copy_from_slice(&self.index.to_le_bytes());
        bytes[4] = self.sub_index;
        bytes[LENGTH] = self.data.len() as u8;
        bytes[TIME].copy_from_slice(&self.time.to_le_bytes());
        bytes[14] = self.flags;
        bytes[DATA..DATA + self.data.len()].copy_from_slice(self.data);
        bytes
    }

    /// The places that nobody looks at. The length is none of them: it must not be over 16.
    pub fn unused(&self) -> impl Iterator<Item = usize> {
        let past = DATA + self.data.len()..RECORD_BYTES;
        let places = self.operation.unused().iter().cloned();
        places.chain([SPARE..DATA, past]).flatten()
    }
}

#[cfg(test)]
mod tests {
    use super::{Operation, Record, RECORD_BYTES};

    #[test]
    fn every_field_has_its_place() {
        let mut bytes = [0; RECORD_BYTES];
        for (place, byte) in bytes.iter_mut().enumerate() {
            *byte = place as u8;
        }
        bytes[0] = 4;
        let record = Record::read(&bytes).unwrap();
        assert_eq!(record.operation, Operation::Reply);
        assert_eq!((record.node, record.sub_index, record.flags), (1, 4, 14));
        assert_eq!(record.index, 0x0302);
        assert_eq!(record.time, 0x0D0C_0B0A_0908_0706);
        assert_eq!(record.data, [16, 17, 18, 19, 20]);
    }

    #[test]
    fn what_is_written_is_read_back() {
        let data: Vec<u8> = (100..116).collect();
        let record = Record {
            index: 0x2100,
            sub_index: 7,
            flags: 0xF0,
            ..Record::new(Operation::Write, 9, u64::MAX - 1, &data)
        };
        assert_eq!(Record::read(&record.bytes()), Some(record));
    }

    #[test]
    fn bad_records() {
        for operation in 0..=u8::MAX {
            let mut bytes = [0; RECORD_BYTES];
            bytes[0] = operation;
            bytes[5] = 16;
            let good = (1..=7).contains(&operation);
            assert_eq!(Record::read(&bytes).is_some(), good, "{operation}");
            bytes[5] = 17;
            assert_eq!(Record::read(&bytes), None, "{operation}");
        }
    }
}
