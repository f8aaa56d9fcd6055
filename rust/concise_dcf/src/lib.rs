//! Concise DCFs, for what is compared over them: which are drawn, and what the repository's own connection
//! sends of one. No reader of ours is in here. Where the repository's files are not at hand, nothing is.

#![cfg(has_oracle)]

pub mod draw;
mod walk;

pub use walk::sent_entries;

/// The bytes of the count, and those of an entry ahead of its data: index, sub-index and size.
pub const COUNT_BYTES: usize = 4;
pub const ENTRY_HEAD: usize = 7;
/// Index, sub-index and 0, which go out ahead of an entry's data.
pub const SENT_HEAD: usize = 4;
/// The longest DCF that document 01 takes; the repository has no limit.
pub const MOST_BYTES: usize = 4_096;

/// How many entries a DCF counts, where it is long enough to say so.
pub fn count(dcf: &[u8]) -> Option<u32> {
    dcf.first_chunk().copied().map(u32::from_le_bytes)
}
