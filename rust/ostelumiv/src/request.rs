//! The request readers: what the payload of a request asks for.

use crate::ffi;
use crate::part;
use crate::refusal::{accepted, Refusal};

/// What a ReadByIndex asks for.
#[derive(Debug, Clone, Copy, PartialEq, Eq)]
pub struct ReadByIndexRequest {
    pub index: u16,
    pub sub_index: u8,
}

impl ReadByIndexRequest {
    /// `SdoInvalidCommandPayload` under four bytes.
    #[inline]
    pub fn from_payload(payload: &[u8]) -> Result<Self, Refusal> {
        let read = ffi::read_by_index(payload);
        accepted(read.refusal)?;
        Ok(Self {
            index: read.index,
            sub_index: read.sub_index,
        })
    }
}

/// What a WriteByIndex asks for.
#[derive(Debug, Clone, Copy, PartialEq, Eq)]
pub struct WriteByIndexRequest<'a> {
    pub index: u16,
    pub sub_index: u8,
    pub data: &'a [u8],
}

impl<'a> WriteByIndexRequest<'a> {
    /// `SdoInvalidCommandPayload` under four bytes.
    #[inline]
    pub fn from_payload(payload: &'a [u8]) -> Result<Self, Refusal> {
        let read = ffi::write_by_index(payload);
        accepted(read.refusal)?;
        Ok(Self {
            index: read.index,
            sub_index: read.sub_index,
            data: part(payload, read.data_start, read.data_len),
        })
    }
}

/// What a WriteAllByIndex asks for.
#[derive(Debug, Clone, Copy, PartialEq, Eq)]
pub struct WriteAllByIndexRequest<'a> {
    pub index: u16,
    pub data: &'a [u8],
}

impl<'a> WriteAllByIndexRequest<'a> {
    /// `SdoInvalidCommandPayload` under four bytes.
    #[inline]
    pub fn from_payload(payload: &'a [u8]) -> Result<Self, Refusal> {
        let read = ffi::write_all_by_index(payload);
        accepted(read.refusal)?;
        Ok(Self {
            index: read.index,
            data: part(payload, read.data_start, read.data_len),
        })
    }
}

/// One of the objects that a ReadMultipleParamByIndex asks for.
#[derive(Debug, Clone, Copy, PartialEq, Eq)]
pub struct MultipleParamEntry {
    pub index: u16,
    pub sub_index: u8,
}

/// What a ReadMultipleParamByIndex asks for. The entries stay in the payload.
#[derive(Debug, Clone, Copy, PartialEq, Eq)]
pub struct ReadMultipleParamRequest<'a> {
    payload: &'a [u8],
    count: usize,
}

impl<'a> ReadMultipleParamRequest<'a> {
    /// `SdoInvalidCommandPayload` where the payload's length is no multiple of four.
    #[inline]
    pub fn from_payload(payload: &'a [u8]) -> Result<Self, Refusal> {
        let read = ffi::read_multiple_param(payload);
        accepted(read.refusal)?;
        Ok(Self {
            payload,
            count: read.count,
        })
    }

    /// How many entries there are.
    pub fn count(&self) -> usize {
        self.count
    }

    /// The entry at a place, counted from 0; none past the last one.
    #[inline]
    pub fn entry(&self, place: usize) -> Option<MultipleParamEntry> {
        let read = ffi::multiple_param_entry(self.payload, place);
        read.found.then_some(MultipleParamEntry {
            index: read.index,
            sub_index: read.sub_index,
        })
    }

    /// The entries in their order.
    pub fn entries(self) -> impl Iterator<Item = MultipleParamEntry> + 'a {
        (0..self.count).map_while(move |place| self.entry(place))
    }
}
