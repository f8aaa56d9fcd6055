//! What is drawn: parameters, lengths, DCFs and times, with the edges of document 01 more often than
//! chance would have them.

use crate::client::MOST_BYTES;
use crate::dcf::{COUNT_BYTES, ENTRY_HEAD, SENT_HEAD};
pub use concise_dcf::draw::counted;
use concise_dcf::draw::{set_count, set_size};
use oracle::ObjectDictionary;
use record::MOST_DATA;
use rng::Rng;

/// Totals at which the parts change, and the longest job.
const EDGES: [usize; 4] = [1_452, 1_456, 2_904, 4_096];
/// Totals around the limits of a first part, and those around two full parts.
const AROUND_LIMITS: [usize; 8] = [1_452, 1_453, 1_454, 1_455, 1_456, 1_457, 2_904, 2_905];
/// The longest payload that gather and record hold together.
pub const MOST_PAYLOAD: usize = MOST_BYTES + MOST_DATA;

pub fn parameters(rng: &mut Rng) -> ObjectDictionary {
    if rng.one_in(3) {
        return ObjectDictionary::default();
    }
    let any = rng.next() as u32;
    ObjectDictionary {
        timeout: rng.pick(&[
            None,
            Some(0),
            Some(1),
            Some(3),
            Some(15_000),
            Some(any),
            Some(u32::MAX),
        ]),
        retries: rng.pick(&[None, Some(0), Some(1), Some(2), Some(any), Some(u32::MAX)]),
    }
}

/// A length that mostly fits in one record.
pub fn short_length(rng: &mut Rng) -> usize {
    match rng.below(8) {
        0 => 0,
        1 => rng.below(60),
        _ => rng.below(MOST_DATA + 1),
    }
}

/// A write's data, of a length near one of the edges.
pub fn edge_length(rng: &mut Rng) -> usize {
    let total = rng.pick(&EDGES) + rng.below(8) - 3;
    // Now and then the edge is that of the data, not of the total.
    let head = rng.pick(&[SENT_HEAD, SENT_HEAD, 0]);
    (total - head).min(MOST_PAYLOAD)
}

/// A write's data, of a length whose total lies around the limits of a first part.
pub fn length_around_limits(rng: &mut Rng) -> usize {
    rng.pick(&AROUND_LIMITS) - SENT_HEAD
}

/// How many bytes a reply brings to an upload that has some already. Every sixteen bytes take a record, so
/// long ones are few: sixteen in so many.
pub fn upload_length(rng: &mut Rng, uploaded: usize, many: usize) -> usize {
    let left = MOST_BYTES - uploaded.min(MOST_BYTES);
    let length = match rng.below(many) {
        0 => left,
        1 => left + 1,
        2 => left.saturating_sub(1),
        3 => rng.below(MOST_PAYLOAD + 1),
        4..8 => rng.below(1_500),
        8..16 => rng.below(200),
        _ => short_length(rng),
    };
    length.min(MOST_PAYLOAD)
}

/// A whole DCF of a few short entries.
pub fn small_dcf(rng: &mut Rng) -> Vec<u8> {
    let lengths: Vec<_> = (0..rng.below(5))
        .map(|_| rng.pick(&[0, 1, 2, 4, 8]))
        .collect();
    counted(rng, &lengths)
}

/// A whole DCF of many entries that hold next to nothing.
pub fn many_entries(rng: &mut Rng, entries: usize) -> Vec<u8> {
    let most = (MOST_BYTES - COUNT_BYTES) / ENTRY_HEAD;
    let lengths = vec![0; entries.min(most)];
    counted(rng, &lengths)
}

/// A whole DCF with an entry whose total is near one of the edges, and short ones around it.
pub fn long_dcf(rng: &mut Rng) -> Vec<u8> {
    let lengths = [rng.below(3), edge_length(rng).min(3_000), rng.below(3)];
    counted(rng, &lengths)
}

/// A whole DCF with an entry whose total lies around the limits of a first part, and short ones around it.
pub fn dcf_around_limits(rng: &mut Rng) -> Vec<u8> {
    let lengths = [rng.below(3), length_around_limits(rng), rng.below(3)];
    counted(rng, &lengths)
}

/// Any DCF: whole, or damaged in one of the ways that one can be.
pub fn any_dcf(rng: &mut Rng) -> Vec<u8> {
    let mut dcf = match rng.below(60) {
        0 => long_dcf(rng),
        1 => {
            let entries = 64 + rng.below(20);
            many_entries(rng, entries)
        }
        _ => small_dcf(rng),
    };
    let entries = u32::from(dcf[0]);
    match rng.below(8) {
        0 => dcf.truncate(rng.below(dcf.len() + 1)),
        1 => dcf.truncate(rng.below(8)),
        2 => dcf.extend(short_bytes(rng)),
        3 => set_count(&mut dcf, rng.pick(&[0, 1, 2, entries + 1, 256, u32::MAX])),
        4 => {
            set_count(&mut dcf, entries + 1);
            dcf.extend(short_bytes(rng));
        }
        5 if entries > 0 => {
            let size = rng.pick(&[1 << 31, u32::MAX, u32::MAX - 7, 5_000]);
            set_size(&mut dcf, COUNT_BYTES, size);
        }
        _ => {}
    }
    dcf
}

fn short_bytes(rng: &mut Rng) -> Vec<u8> {
    let length = short_length(rng);
    rng.bytes(length)
}

/// A time at which a deadline just fits, or just does not.
pub fn late_time(rng: &mut Rng, timeout: u64) -> u64 {
    let last = u64::MAX - timeout;
    let near = rng.pick(&[0, 1, 2, 1_000, timeout]);
    match rng.below(5) {
        0 => u64::MAX - rng.below(3) as u64,
        1 => last.saturating_add(near),
        2 => rng.next(),
        _ => last.saturating_sub(near),
    }
}
