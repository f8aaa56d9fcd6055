//! The proved codec of an Ethernet POWERLINK SDO client, as safe Rust: the sequence header, the
//! command, the request readers and the concise DCF.
//!
//! # Warning: the flag bits are not those of EPSG DS 301
//!
//! They are those of the repository that this client was carried over from: response 0x10, abort
//! 0x20, segmentation × 64. In EPSG DS 301 they are 0x80, 0x40 and × 16. An answer in which a node
//! that follows EPSG DS 301 aborts (flags C0) is read here as Complete with `is_aborted` false.
//! Whoever takes such an answer for an acknowledgement takes a refused write for a written one.
//! docs/DIFFERENCES.md has all the cases.
//!
//! # What is here
//!
//! The codec alone, bytes to values and back. The connection, the manager and the replay can be had
//! from Rattle only.
//!
//! Every function hands its bytes to a C function of include/ostelumiv.h and names the numbers that
//! come back; it decides nothing of its own. Those that read and write are inlined where they are
//! called. The names are those of the repository's Rust. Nothing is allocated: a payload, and an
//! entry's data, are parts of the bytes that were given.
//!
//! Every call returns for every input. What cannot be read or written is answered with a
//! [`Refusal`], and then no byte of a buffer was written.

#![no_std]
#![deny(unsafe_code)]

mod command;
mod dcf;
#[allow(unsafe_code)]
mod ffi;
mod numbered;
mod refusal;
mod request;
mod sequence;

pub use command::{
    command_at, command_write_numbers, CommandId, CommandLayerHeader, CommandNumbers, SdoCommand,
    Segmentation,
};
pub use dcf::{ConciseDcf, DcfCursor, DcfEntries, DcfEntry, DcfStep};
pub use refusal::Refusal;
pub use request::{
    MultipleParamEntry, ReadByIndexRequest, ReadMultipleParamRequest, WriteAllByIndexRequest,
    WriteByIndexRequest,
};
pub use sequence::{sequence_write_numbers, ReceiveConnState, SendConnState, SequenceLayerHeader};

/// The part of `bytes` that the library answered as a start and a length. The library promises that
/// it lies within them.
#[inline]
fn part(bytes: &[u8], start: usize, len: usize) -> &[u8] {
    &bytes[start..start + len]
}
