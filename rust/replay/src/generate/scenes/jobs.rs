//! Jobs of the lengths that document 01 names.

use super::{clear, free_node, play};
use crate::client::MOST_BYTES;
use crate::generate::draw;
use crate::generate::stage::Stage;
use record::RESPONSE;

/// Document 01's five records.
pub fn document_run(stage: &mut Stage) {
    let node = 5;
    stage.write(node, &[0x01, 0x04]);
    stage.ask();
    stage.answer(node, |reply| reply.flags &= !RESPONSE);
    stage.ask();
    stage.answer(node, |reply| reply.flags &= !RESPONSE);
    clear(stage);
}

/// Writes whose totals are 4, 1,452, 1,453, 1,456, 1,457, 2,904 and 2,905.
pub fn part_edges(stage: &mut Stage) {
    for total in [4, 1_452, 1_453, 1_456, 1_457, 2_904, 2_905] {
        let node = free_node(stage);
        let data = stage.rng.bytes(total - 4);
        stage.write(node, &data);
        play(stage, node);
    }
}

/// A write of 4,093 data bytes gets 7, one of 4,092 starts and is sent.
pub fn longest_write(stage: &mut Stage) {
    let node = free_node(stage);
    for length in [4_093, 4_092] {
        let data = stage.rng.bytes(length);
        stage.write(node, &data);
    }
    play(stage, node);
}

/// 4,096 bytes are gathered, and no more. A DCF of one more gets 7, and one of these starts.
pub fn longest_dcf(stage: &mut Stage) {
    let node = free_node(stage);
    let mut dcf = draw::many_entries(&mut stage.rng, 3);
    dcf.resize(MOST_BYTES, 0);
    for own in [&[1][..], &[]] {
        stage.gather(&dcf);
        stage.gather(&[1, 2]);
        stage.dcf(node, own);
    }
    play(stage, node);
}
