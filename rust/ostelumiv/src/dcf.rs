//! The concise DCF: a count, then entries of index, sub-index, size and data.

use crate::ffi;
use crate::part;
use crate::refusal::{accepted, Refusal};

/// A concise DCF, at least as long as its count.
#[derive(Debug, Clone, Copy, PartialEq, Eq)]
pub struct ConciseDcf<'a> {
    bytes: &'a [u8],
    count: u32,
}

/// A readable entry.
#[derive(Debug, Clone, Copy, PartialEq, Eq)]
pub struct DcfEntry<'a> {
    pub index: u16,
    pub sub_index: u8,
    pub data: &'a [u8],
}

/// Where the next entry would start, and how many are counted from there on.
#[derive(Debug, Clone, Copy, PartialEq, Eq)]
pub struct DcfCursor {
    pub at: usize,
    pub left: u32,
}

/// What stands at a cursor.
#[derive(Debug, Clone, Copy, PartialEq, Eq)]
pub enum DcfStep<'a> {
    /// None is counted any more.
    End,
    /// An entry, and the cursor behind it.
    Entry(DcfEntry<'a>, DcfCursor),
    /// One is counted, but its bytes do not lie within the DCF.
    Unreadable,
}

impl<'a> ConciseDcf<'a> {
    /// `DcfTooShort` under four bytes.
    #[inline]
    pub fn new(bytes: &'a [u8]) -> Result<Self, Refusal> {
        let read = ffi::dcf_count(bytes);
        accepted(read.refusal)?;
        Ok(Self {
            bytes,
            // The library read it from four bytes.
            count: read.count as u32,
        })
    }

    /// How many entries the DCF counts, readable or not.
    pub fn count(&self) -> u32 {
        self.count
    }

    /// The cursor of the first entry.
    pub fn first(&self) -> DcfCursor {
        DcfCursor {
            at: 4,
            left: self.count,
        }
    }

    #[inline]
    pub fn step(&self, cursor: DcfCursor) -> DcfStep<'a> {
        let step = ffi::dcf_step(self.bytes, cursor.at, cursor.left);
        match step.kind {
            ffi::STEP_END => DcfStep::End,
            ffi::STEP_ENTRY => DcfStep::Entry(
                DcfEntry {
                    index: step.index,
                    sub_index: step.sub_index,
                    data: part(self.bytes, step.start, step.len),
                },
                DcfCursor {
                    at: step.next_at,
                    left: step.next_left,
                },
            ),
            _ => DcfStep::Unreadable,
        }
    }

    /// The readable entries in their order.
    pub fn entries(&self) -> DcfEntries<'a> {
        DcfEntries {
            dcf: *self,
            cursor: self.first(),
        }
    }

    /// Whether all counted entries are readable.
    pub fn is_complete(&self) -> bool {
        let mut entries = self.entries();
        entries.by_ref().for_each(drop);
        self.step(entries.cursor) == DcfStep::End
    }
}

/// The readable entries of a DCF. They stop at the first that is not.
#[derive(Debug, Clone)]
pub struct DcfEntries<'a> {
    dcf: ConciseDcf<'a>,
    cursor: DcfCursor,
}

impl<'a> Iterator for DcfEntries<'a> {
    type Item = DcfEntry<'a>;

    fn next(&mut self) -> Option<DcfEntry<'a>> {
        let DcfStep::Entry(entry, behind) = self.dcf.step(self.cursor) else {
            return None;
        };
        self.cursor = behind;
        Some(entry)
    }
}
