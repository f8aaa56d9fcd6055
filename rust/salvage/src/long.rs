//! DCFs that are long: of many entries, and near the limit of 4,096 bytes on either side.

use concise_dcf::draw::{self, counted, push_entry, set_count, set_size};
use concise_dcf::{COUNT_BYTES, ENTRY_HEAD, MOST_BYTES};
use rng::Rng;

/// So many turns have each first size of `draw::long_entries`, whole and cut.
const TURNS: usize = 18;

/// So many entries that the count has two bytes, on either side of 256 and up to as many as there is room
/// for. It may count one fewer or one more.
pub fn hundreds(rng: &mut Rng) -> Vec<u8> {
    let most = (MOST_BYTES - COUNT_BYTES) / ENTRY_HEAD;
    let entries = rng.pick(&[255, 256, 257, most - 1, most]);
    let mut dcf = counted(rng, &vec![0; entries]);
    let count = rng.pick(&[entries, entries, entries - 1, entries + 1]);
    set_count(&mut dcf, count as u32);
    dcf
}

/// A few long entries; in every other DCF the last one loses its tail.
pub fn long_entries(rng: &mut Rng) -> Vec<u8> {
    let turn = rng.below(TURNS);
    draw::long_entries(rng, turn)
}

/// A whole DCF of 4,090 to 4,096 bytes.
pub fn up_to_the_limit(rng: &mut Rng) -> Vec<u8> {
    let len = near_the_limit(rng);
    filled(rng, len).0
}

/// A whole DCF that is one byte too long.
pub fn one_too_long(rng: &mut Rng) -> Vec<u8> {
    filled(rng, MOST_BYTES + 1).0
}

/// A DCF of 4,090 to 4,096 bytes whose last entry says that it has up to two bytes of data more or fewer.
pub fn last_size_off(rng: &mut Rng) -> Vec<u8> {
    let len = near_the_limit(rng);
    let (mut dcf, last) = filled(rng, len);
    let held = len - last - ENTRY_HEAD;
    let size = rng.pick(&[held - 2, held - 1, held + 1, held + 2]);
    set_size(&mut dcf, last, size as u32);
    dcf
}

/// A whole DCF of 4,095 to 4,200 bytes.
pub fn around_the_limit(rng: &mut Rng) -> Vec<u8> {
    let len = 4_095 + rng.below(106);
    filled(rng, len).0
}

/// A length of up to six bytes under the limit, every other time the limit itself.
fn near_the_limit(rng: &mut Rng) -> usize {
    let under = rng.below(7);
    MOST_BYTES - rng.pick(&[0, under])
}

/// A whole DCF of exactly so many bytes, and where its last entry begins: short ones, and behind them one
/// that takes what is left.
fn filled(rng: &mut Rng, len: usize) -> (Vec<u8>, usize) {
    let sizes: Vec<_> = (0..rng.below(40)).map(|_| rng.below(10)).collect();
    let mut dcf = counted(rng, &sizes);
    let last = dcf.len();
    push_entry(&mut dcf, len - last - ENTRY_HEAD, rng);
    set_count(&mut dcf, sizes.len() as u32 + 1);
    (dcf, last)
}
