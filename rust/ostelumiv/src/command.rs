//! The command: a header of eight bytes, after Initiate a data size of four more, then the payload.

use crate::ffi;
use crate::numbered::numbered;
use crate::part;
use crate::refusal::{accepted, Refusal};

numbered! {
    /// What a command is for.
    #[derive(Default)]
    pub enum CommandId {
        #[default]
        Nil = 0x00,
        WriteByIndex = 0x01,
        ReadByIndex = 0x02,
        WriteAllByIndex = 0x03,
        ReadAllByIndex = 0x04,
        WriteByName = 0x05,
        ReadByName = 0x06,
        FileWrite = 0x20,
        FileRead = 0x21,
        WriteMultipleParamByIndex = 0x31,
        ReadMultipleParamByIndex = 0x32,
        Abort = 0x40,
        MaxSegmentSize = 0x70,
    }
}

numbered! {
    /// How a command stands in its transfer.
    #[derive(Default)]
    pub enum Segmentation {
        #[default]
        Expedited = 0,
        Initiate = 1,
        Segment = 2,
        Complete = 3,
    }
}

#[derive(Debug, Clone, Copy, PartialEq, Eq, Default)]
pub struct CommandLayerHeader {
    pub transaction_id: u8,
    pub is_response: bool,
    pub is_aborted: bool,
    pub segmentation: Segmentation,
    pub command_id: CommandId,
    pub segment_size: u16,
}

/// A command. It is well formed when its segment size is the payload's length and a data size is
/// present exactly with Initiate.
#[derive(Debug, Clone, Copy, PartialEq, Eq, Default)]
pub struct SdoCommand<'a> {
    pub header: CommandLayerHeader,
    pub data_size: Option<u32>,
    pub payload: &'a [u8],
}

impl<'a> SdoCommand<'a> {
    /// Reads the command at the start of a buffer. In the order of the checks: `BufferTooShort` under
    /// eight bytes, `InvalidEnumValue` for an unknown command number, `BufferTooShort` for an
    /// Initiate under twelve bytes and for a payload that runs past the end.
    #[inline]
    pub fn deserialize(buffer: &'a [u8]) -> Result<Self, Refusal> {
        let read = ffi::command_read(buffer);
        accepted(read.refusal)?;
        Ok(Self {
            header: CommandLayerHeader {
                transaction_id: read.transaction_id,
                is_response: read.is_response,
                is_aborted: read.is_aborted,
                segmentation: read.segmentation,
                command_id: read.command_id,
                segment_size: read.segment_size,
            },
            data_size: read.has_data_size.then_some(read.data_size),
            payload: part(buffer, read.payload_start, read.payload_len),
        })
    }

    /// Writes the command to the start of a buffer and answers how many bytes that took:
    /// `BufferTooShort` where it does not fit. The segment size goes out as given, an absent data
    /// size as 0.
    #[inline]
    pub fn serialize(&self, buffer: &mut [u8]) -> Result<usize, Refusal> {
        let numbers = CommandNumbers {
            transaction_id: self.header.transaction_id,
            is_response: self.header.is_response.into(),
            is_aborted: self.header.is_aborted.into(),
            segmentation: self.header.segmentation.number(),
            command_id: self.header.command_id.number(),
            segment_size: self.header.segment_size,
            has_data_size: self.data_size.is_some().into(),
            data_size: self.data_size.unwrap_or(0),
        };
        command_write_numbers(&numbers, self.payload, buffer)
    }
}

/// The listing of command numbers: places 0 to 12 give their number, others none.
#[inline]
pub fn command_at(place: usize) -> Option<u8> {
    let at = ffi::command_at(place);
    at.listed.then_some(at.number)
}

/// The numbers of a command, whether they name one or not. A flag is set by any number but 0.
#[derive(Debug, Clone, Copy, PartialEq, Eq, Default)]
pub struct CommandNumbers {
    pub transaction_id: u8,
    pub is_response: u8,
    pub is_aborted: u8,
    pub segmentation: u8,
    pub command_id: u8,
    pub segment_size: u16,
    pub has_data_size: u8,
    pub data_size: u32,
}

/// Writes the command that the numbers name: `InvalidEnumValue` for a segmentation above 3 or an
/// unknown command number, ahead of `BufferTooShort`.
#[inline]
pub fn command_write_numbers(
    numbers: &CommandNumbers,
    payload: &[u8],
    buffer: &mut [u8],
) -> Result<usize, Refusal> {
    let written = ffi::command_write(numbers, payload, buffer);
    accepted(written.refusal)?;
    Ok(written.bytes)
}
