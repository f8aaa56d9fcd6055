//! Where a command's payload starts, for making inputs on both sides of that edge.

use ostelumiv::Segmentation;

pub const HEADER: usize = 8;
pub const INITIATE_HEADER: usize = 12;

/// The bytes before the payload of a command with this segmentation's number.
pub fn header_bytes(segmentation: u8) -> usize {
    if segmentation == Segmentation::Initiate.number() {
        INITIATE_HEADER
    } else {
        HEADER
    }
}
