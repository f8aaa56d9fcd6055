//! The replay's own rules: bad records, and the gather.

use super::{clear, free_node, play};
use crate::generate::stage::{Stage, COMPLETE, INITIATE};
use record::{LENGTH, OPERATION, RECORD_BYTES};

pub fn records(stage: &mut Stage) {
    bad(stage);
    let node = free_node(stage);
    stage.gather(&[1, 2, 3, 4, 5]);
    // These leave what was gathered, and the write uses it.
    stage.read(node);
    bad(stage);
    stage.ask();
    stage.tick();
    stage.write(node, &[6]);
    stage.gather(&[0; 3]);
    clear(stage);
    stage.dcf(node, &[0]);
    play(stage, node);
    unused(stage);
}

/// Operations 0, 8 and 255, and lengths over 16.
fn bad(stage: &mut Stage) {
    for (operation, length) in [(0, 0), (8, 0), (255, 255), (6, 17), (7, 255)] {
        let mut bytes = [0; RECORD_BYTES];
        bytes[OPERATION] = operation;
        bytes[LENGTH] = length;
        stage.push(bytes);
    }
}

/// Bytes that nobody looks at, in a job that needs a gather at each reply.
fn unused(stage: &mut Stage) {
    let loose = std::mem::replace(&mut stage.loose, true);
    let node = free_node(stage);
    stage.read(node);
    for segmentation in [0, INITIATE, COMPLETE] {
        super::ask_for(stage, node);
        let payload = stage.rng.bytes(20);
        stage.answer(node, |reply| {
            reply.flags |= segmentation | 0x0F;
            reply.payload = payload;
        });
    }
    stage.loose = loose;
}
