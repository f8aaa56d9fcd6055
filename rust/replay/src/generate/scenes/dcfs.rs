//! DCFs that are whole, cut, over-counted and trailing.

use super::{clear, free_node, play, TWO_ENTRIES};
use crate::generate::draw;
use crate::generate::stage::Stage;

/// A DCF, cut at every place.
pub fn every_cut(stage: &mut Stage) {
    let dcf = if stage.loose {
        draw::small_dcf(&mut stage.rng)
    } else {
        TWO_ENTRIES.to_vec()
    };
    // One that is too short leaves its node Idle, and the next one starts there.
    let node = free_node(stage);
    for length in 0..=dcf.len() {
        stage.dcf(node, &dcf[..length]);
        play(stage, node);
    }
    clear(stage);
}

/// Counts of none, of fewer entries than there are, and of more.
pub fn counts(stage: &mut Stage) {
    let node = free_node(stage);
    let mut dcf = TWO_ENTRIES;
    for count in [0, 1, 2, 3, 256, u32::MAX] {
        dcf[..4].copy_from_slice(&u32::to_le_bytes(count));
        stage.dcf(node, &dcf);
        play(stage, node);
    }
}

/// Sizes of the second entry that lie at the end of the bytes, behind it, and near 2^32.
pub fn sizes(stage: &mut Stage) {
    let node = free_node(stage);
    let mut dcf = TWO_ENTRIES.to_vec();
    dcf.extend([9; 3]);
    for size in [2, 3, 4, 1 << 31, u32::MAX - 19, u32::MAX] {
        dcf[16..20].copy_from_slice(&u32::to_le_bytes(size));
        stage.dcf(node, &dcf);
        play(stage, node);
    }
}

/// Each job on a node that a DCF under four bytes left Idle.
pub fn idle(stage: &mut Stage) {
    let node = free_node(stage);
    let starts: [fn(&mut Stage, u8); 3] = [
        |stage, node| stage.write(node, &[1]),
        |stage, node| stage.read(node),
        |stage, node| stage.dcf(node, &TWO_ENTRIES),
    ];
    for (length, start) in starts.into_iter().enumerate() {
        stage.dcf(node, &TWO_ENTRIES[..length]);
        stage.ask();
        stage.tick();
        start(stage, node);
        play(stage, node);
    }
    clear(stage);
}
