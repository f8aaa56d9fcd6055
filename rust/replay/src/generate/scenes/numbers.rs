//! Numbers that come round: send and last received past 63, transactions past 255.

use super::{clear, free_node, play, TWO_ENTRIES};
use crate::generate::draw;
use crate::generate::stage::Stage;

/// A DCF of so many entries that both sequence numbers come round.
pub fn sends_round(stage: &mut Stage) {
    let node = free_node(stage);
    let dcf = draw::many_entries(&mut stage.rng, 66);
    stage.dcf(node, &dcf);
    play(stage, node);
}

/// Starts until the transaction number is 253; then a DCF whose second load takes it from 255 to 1,
/// one whose first load does, and a read that takes 1.
pub fn transactions_round(stage: &mut Stage) {
    clear(stage);
    let busy = free_node(stage);
    for _ in 0..=u8::MAX {
        if stage.table().transaction != 253 {
            // The first one starts, and each refusal with 4 takes a number too.
            stage.read(busy);
        }
    }
    for _ in 0..2 {
        let node = free_node(stage);
        stage.dcf(node, &TWO_ENTRIES);
        play(stage, node);
    }
    stage.read(busy);
    clear(stage);
}
