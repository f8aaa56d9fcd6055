//! DCFs as they are drawn: whole ones, and those that lost something or say something wrong. What a caller
//! chooses among, a count or a size, it draws itself.

use crate::{COUNT_BYTES, ENTRY_HEAD, MOST_BYTES};
use rng::Rng;

/// Sizes of data around those at which an entry goes out in one part more, and the largest.
const LONG_SIZES: [usize; 9] = [1447, 1448, 1449, 1452, 1453, 2900, 2901, 4084, 4085];

/// A whole DCF with up to five entries of up to nine bytes of data.
pub fn small(rng: &mut Rng) -> Vec<u8> {
    let count = rng.below(6);
    let mut dcf = (count as u32).to_le_bytes().to_vec();
    for _ in 0..count {
        let data = rng.below(10);
        push_entry(&mut dcf, data, rng);
    }
    dcf
}

/// A whole DCF whose entries have data of these sizes.
pub fn counted(rng: &mut Rng, sizes: &[usize]) -> Vec<u8> {
    let mut dcf = (sizes.len() as u32).to_le_bytes().to_vec();
    for size in sizes {
        push_entry(&mut dcf, *size, rng);
    }
    dcf
}

/// An entry of a drawn object, with so many bytes of data. It is not counted.
pub fn push_entry(dcf: &mut Vec<u8>, data: usize, rng: &mut Rng) {
    dcf.extend(rng.bytes(3));
    dcf.extend((data as u32).to_le_bytes());
    dcf.extend(rng.bytes(data));
}

pub fn set_count(dcf: &mut [u8], count: u32) {
    dcf[..COUNT_BYTES].copy_from_slice(&count.to_le_bytes());
}

/// The size of the entry that begins at this place.
pub fn set_size(dcf: &mut [u8], entry: usize, size: u32) {
    dcf[entry + 3..entry + ENTRY_HEAD].copy_from_slice(&size.to_le_bytes());
}

/// The DCF, cut at every place, from none of it to all.
pub fn every_cut(dcf: &[u8]) -> impl Iterator<Item = &[u8]> {
    (0..=dcf.len()).map(|len| &dcf[..len])
}

/// A small DCF, with up to eleven bytes after it, that counts what the caller makes of what it holds.
pub fn counting(rng: &mut Rng, counted: impl FnOnce(&mut Rng, u32) -> u32) -> Vec<u8> {
    let mut dcf = small(rng);
    let held = u32::from(dcf[0]);
    let trailing = rng.below(12);
    dcf.extend(rng.bytes(trailing));
    let count = counted(rng, held);
    set_count(&mut dcf, count);
    dcf
}

/// A small DCF with one entry more, whose size is within sixteen of what the caller names. It is told what
/// could be taken for the size: how much data there is, where the entry begins, and where it ends.
pub fn sized(rng: &mut Rng, near: impl FnOnce(&mut Rng, [u32; 3]) -> u32) -> Vec<u8> {
    let mut dcf = small(rng);
    let last = dcf.len();
    let data = rng.below(24);
    push_entry(&mut dcf, data, rng);
    let near = near(rng, [data, last, dcf.len()].map(|place| place as u32));
    let size = near.wrapping_add(rng.below(33) as u32).wrapping_sub(16);
    set_size(&mut dcf, last, size);
    dcf[0] += 1;
    dcf
}

/// Entries of up to 4,085 bytes of data, so that they go out in several parts. The turn chooses the size of
/// the first, and every other turn the last one loses its tail.
pub fn long_entries(rng: &mut Rng, turn: usize) -> Vec<u8> {
    let mut dcf = vec![0; COUNT_BYTES];
    let mut size = LONG_SIZES[turn % LONG_SIZES.len()];
    while dcf.len() + ENTRY_HEAD + size <= MOST_BYTES {
        push_entry(&mut dcf, size, rng);
        dcf[0] += 1;
        size = rng.pick(&LONG_SIZES);
    }
    if turn % 2 == 1 {
        let cut = 1 + rng.below(8);
        dcf.truncate(dcf.len() - cut);
    }
    dcf
}

/// Drawn bytes, most of them 0, since a drawn count or size is mostly far beyond the end.
pub fn mostly_zeros(rng: &mut Rng) -> Vec<u8> {
    let len = rng.below(80);
    let zeros = 1 + rng.below(4);
    let mut dcf = rng.bytes(len);
    for byte in &mut dcf {
        let kept = rng.below(zeros + 1) == 0;
        *byte = if kept { *byte % 16 } else { 0 };
    }
    dcf
}
