//! The sequence header: four bytes in front of every command.

use crate::ffi;
use crate::numbered::numbered;
use crate::refusal::{accepted, refused, Refusal};

numbered! {
    /// The receive state of a header.
    #[derive(Default)]
    pub enum ReceiveConnState {
        #[default]
        NoConnection = 0,
        Initialization = 1,
        ConnectionValid = 2,
        ErrorResponse = 3,
    }
}

numbered! {
    /// The send state of a header.
    #[derive(Default)]
    pub enum SendConnState {
        #[default]
        NoConnection = 0,
        Initialization = 1,
        ConnectionValid = 2,
        ConnectionValidAckRequest = 3,
    }
}

/// A header. It is well formed when both numbers are below 64.
///
/// It is laid out as in the library's answer, which is handed on as it came.
#[derive(Debug, Clone, Copy, PartialEq, Eq, Default)]
#[repr(C)]
pub struct SequenceLayerHeader {
    pub receive_sequence_number: u8,
    pub receive_con: ReceiveConnState,
    pub send_sequence_number: u8,
    pub send_con: SendConnState,
}

impl SequenceLayerHeader {
    /// Reads the header at the start of a buffer: `BufferTooShort` under four bytes.
    #[inline]
    pub fn deserialize(buffer: &[u8]) -> Result<Self, Refusal> {
        let read = ffi::sequence_read(buffer);
        // No `accepted` here: header and refusal share a register, and its `?` would take them apart.
        match read.refusal {
            0 => Ok(read.header),
            number => refused(number),
        }
    }

    /// Writes the header to the start of a buffer, its numbers modulo 64, and answers how many bytes
    /// that took: `BufferTooShort` under four bytes of room.
    #[inline]
    pub fn serialize(&self, buffer: &mut [u8]) -> Result<usize, Refusal> {
        sequence_write_numbers(
            self.receive_sequence_number,
            self.receive_con.number(),
            self.send_sequence_number,
            self.send_con.number(),
            buffer,
        )
    }
}

/// Writes the header that four numbers name: `InvalidEnumValue` for a state above 3, ahead of
/// `BufferTooShort`.
#[inline]
pub fn sequence_write_numbers(
    receive_sequence_number: u8,
    receive_con: u8,
    send_sequence_number: u8,
    send_con: u8,
    buffer: &mut [u8],
) -> Result<usize, Refusal> {
    let written = ffi::sequence_write(
        receive_sequence_number,
        receive_con,
        send_sequence_number,
        send_con,
        buffer,
    );
    accepted(written.refusal)?;
    Ok(written.bytes)
}
