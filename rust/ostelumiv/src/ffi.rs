//! The C functions of include/ostelumiv.h: their answers, their declarations, and a safe function
//! over each. This is the only file with `unsafe`.
//!
//! A slice goes over as its pointer and its length. The pointer of an empty slice points at nothing;
//! the library does not follow a pointer whose length is 0.
//!
//! States, segmentations, command numbers and flags of an answer are taken for what they name, with
//! no check: the library is proved to answer each with the number of one of its cases, and with 0
//! beside a refusal or where nothing is found, which is a case of all of them (`NumbersName` in
//! crates/ostelumiv/specs/Names). A field that becomes an enum or a bool here needs a line there.

use crate::command::{CommandId, CommandNumbers, Segmentation};
use crate::sequence::SequenceLayerHeader;

#[repr(C)]
pub struct Written {
    pub refusal: u8,
    pub bytes: usize,
}

#[repr(C)]
pub struct Sequence {
    pub refusal: u8,
    /// Its numbers lie in it as they do in the library's answer.
    pub header: SequenceLayerHeader,
}

#[repr(C)]
pub struct Command {
    pub refusal: u8,
    pub transaction_id: u8,
    pub is_response: bool,
    pub is_aborted: bool,
    pub segmentation: Segmentation,
    pub command_id: CommandId,
    pub segment_size: u16,
    pub has_data_size: bool,
    pub data_size: u32,
    pub payload_start: usize,
    pub payload_len: usize,
}

#[repr(C)]
pub struct Listed {
    pub listed: bool,
    pub number: u8,
}

#[repr(C)]
pub struct Index {
    pub refusal: u8,
    pub sub_index: u8,
    pub index: u16,
    pub data_start: usize,
    pub data_len: usize,
}

#[repr(C)]
pub struct Count {
    pub refusal: u8,
    pub count: usize,
}

#[repr(C)]
pub struct Entry {
    pub found: bool,
    pub sub_index: u8,
    pub index: u16,
}

pub const STEP_END: u8 = 0;
pub const STEP_ENTRY: u8 = 1;

#[repr(C)]
pub struct Step {
    pub kind: u8,
    pub sub_index: u8,
    pub index: u16,
    pub start: usize,
    pub len: usize,
    pub next_at: usize,
    pub next_left: u32,
}

extern "C" {
    fn ostelumiv_sequence_read(buffer: *const u8, buffer_len: usize) -> Sequence;
    fn ostelumiv_sequence_write(
        receive_sequence_number: u8,
        receive_con: u8,
        send_sequence_number: u8,
        send_con: u8,
        buffer: *mut u8,
        buffer_len: usize,
    ) -> Written;
    fn ostelumiv_command_read(buffer: *const u8, buffer_len: usize) -> Command;
    fn ostelumiv_command_write(
        transaction_id: u8,
        is_response: u8,
        is_aborted: u8,
        segmentation: u8,
        command_id: u8,
        segment_size: u16,
        has_data_size: u8,
        data_size: u32,
        payload: *const u8,
        payload_len: usize,
        buffer: *mut u8,
        buffer_len: usize,
    ) -> Written;
    fn ostelumiv_command_at(place: usize) -> Listed;
    fn ostelumiv_read_by_index(payload: *const u8, payload_len: usize) -> Index;
    fn ostelumiv_write_by_index(payload: *const u8, payload_len: usize) -> Index;
    fn ostelumiv_write_all_by_index(payload: *const u8, payload_len: usize) -> Index;
    fn ostelumiv_read_multiple_param(payload: *const u8, payload_len: usize) -> Count;
    fn ostelumiv_multiple_param_entry(
        payload: *const u8,
        payload_len: usize,
        place: usize,
    ) -> Entry;
    fn ostelumiv_dcf_count(dcf: *const u8, dcf_len: usize) -> Count;
    fn ostelumiv_dcf_step(dcf: *const u8, dcf_len: usize, at: usize, left: u32) -> Step;
}

/// The safe functions over those that read a slice; `place` and the like are numbers beside it.
macro_rules! readers {
    ($($name:ident($($number:ident: $type:ty),*) -> $answer:ty, $c_name:ident;)+) => {
        $(#[inline]
        pub fn $name(bytes: &[u8] $(, $number: $type)*) -> $answer {
            // SAFETY: pointer and length are those of a slice that is lent for the whole call, the
            // function only reads it, and its answer is valid (see above).
            unsafe { $c_name(bytes.as_ptr(), bytes.len() $(, $number)*) }
        })+
    };
}

readers! {
    sequence_read() -> Sequence, ostelumiv_sequence_read;
    command_read() -> Command, ostelumiv_command_read;
    read_by_index() -> Index, ostelumiv_read_by_index;
    write_by_index() -> Index, ostelumiv_write_by_index;
    write_all_by_index() -> Index, ostelumiv_write_all_by_index;
    read_multiple_param() -> Count, ostelumiv_read_multiple_param;
    multiple_param_entry(place: usize) -> Entry, ostelumiv_multiple_param_entry;
    dcf_count() -> Count, ostelumiv_dcf_count;
    dcf_step(at: usize, left: u32) -> Step, ostelumiv_dcf_step;
}

#[inline]
pub fn command_at(place: usize) -> Listed {
    // SAFETY: only a number goes over, and the answer is valid (see above).
    unsafe { ostelumiv_command_at(place) }
}

#[inline]
pub fn sequence_write(
    receive_sequence_number: u8,
    receive_con: u8,
    send_sequence_number: u8,
    send_con: u8,
    buffer: &mut [u8],
) -> Written {
    // SAFETY: pointer and length are those of a slice that is lent for change for the whole call.
    unsafe {
        ostelumiv_sequence_write(
            receive_sequence_number,
            receive_con,
            send_sequence_number,
            send_con,
            buffer.as_mut_ptr(),
            buffer.len(),
        )
    }
}

#[inline]
pub fn command_write(numbers: &CommandNumbers, payload: &[u8], buffer: &mut [u8]) -> Written {
    // SAFETY: pointers and lengths are those of slices that are lent for the whole call; the one that
    // is written cannot overlap the other, since it is lent for change.
    unsafe {
        ostelumiv_command_write(
            numbers.transaction_id,
            numbers.is_response,
            numbers.is_aborted,
            numbers.segmentation,
            numbers.command_id,
            numbers.segment_size,
            numbers.has_data_size,
            numbers.data_size,
            payload.as_ptr(),
            payload.len(),
            buffer.as_mut_ptr(),
            buffer.len(),
        )
    }
}
