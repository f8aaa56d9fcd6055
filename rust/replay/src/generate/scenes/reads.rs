//! Reads of many nodes at once.

use super::{ask_for, clear, free_node};
use crate::client::MOST_HELD;
use crate::generate::stage::Stage;

/// The place among the nodes of the one that writes.
const WRITER: usize = 3;

/// Eight nodes, of which one writes, each brought to its command. They are answered from the last to the first,
/// each with as many bytes as its place.
pub fn together(stage: &mut Stage) {
    clear(stage);
    let nodes: Vec<u8> = (0..MOST_HELD).map(|place| start(stage, place)).collect();
    for node in &nodes {
        ask_for(stage, *node);
        stage.answer(*node, |_| {});
        ask_for(stage, *node);
    }
    for (length, node) in nodes.iter().enumerate().rev() {
        let payload = stage.rng.bytes(length);
        stage.answer(*node, |reply| reply.payload = payload);
    }
}

fn start(stage: &mut Stage, place: usize) -> u8 {
    let node = free_node(stage);
    match place {
        WRITER => stage.write(node, &[0x01, 0x04]),
        _ => stage.read(node),
    }
    node
}
