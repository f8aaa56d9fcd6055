//! Transfers around the limits of a first part, as a DCF's entries and with what may happen between parts.

use super::timeouts::use_up_retries;
use super::{ask_for, clear, free_node, play};
use crate::dcf::SENT_HEAD;
use crate::generate::draw;
use crate::generate::stage::Stage;
use crate::published::MOST_PART;

/// DCFs whose entries have the totals 1,452, 1,453, 1,456, 1,457, 2,904 and 2,905.
pub fn entries(stage: &mut Stage) {
    for totals in [&[1_452, 1_453][..], &[1_456, 1_457], &[2_904], &[2_905]] {
        let node = free_node(stage);
        let lengths: Vec<usize> = totals.iter().map(|total| total - SENT_HEAD).collect();
        let dcf = draw::counted(&mut stage.rng, &lengths);
        stage.dcf(node, &dcf);
        play(stage, node);
    }
}

/// One part or two, each repeated while retries are left. The last is answered with a duplicate number first,
/// so that an empty Complete goes out after it.
pub fn disturbed(stage: &mut Stage) {
    clear(stage);
    for total in [1_452, 1_453, 1_456] {
        let node = free_node(stage);
        let data = stage.rng.bytes(total - SENT_HEAD);
        stage.write(node, &data);
        let parts = total.div_ceil(MOST_PART);
        // The opening is answered, and each part.
        for answered in 0..=parts {
            ask_for(stage, node);
            use_up_retries(stage, node);
            let back = u8::from(answered == parts);
            stage.answer(node, |reply| reply.send = (reply.send + 64 - back) % 64);
        }
        play(stage, node);
    }
}
