//! Many nodes at once: the table's limit, ends that come together, and the order of walks.

use super::{ask_for, clear, free_node, TWO_ENTRIES};
use crate::client::MOST_HELD;
use crate::generate::stage::Stage;

/// A DCF that counts nothing.
const NO_ENTRIES: [u8; 4] = [0; 4];

/// Starts for free nodes until eight are held.
fn fill(stage: &mut Stage) {
    for _ in stage.table().held.len()..MOST_HELD {
        let node = free_node(stage);
        stage.dcf(node, &NO_ENTRIES);
    }
}

/// Eight nodes, and a ninth that gets 6 whatever it asks for; a busy one gets 4 likewise.
pub fn ninth(stage: &mut Stage) {
    fill(stage);
    let busy = stage.table().held[0].node;
    let ninth = free_node(stage);
    let time = stage.now;
    let long = stage.rng.bytes(4_093);
    for node in [ninth, busy] {
        stage.write(node, &[1]);
        stage.read(node);
        stage.dcf(node, &TWO_ENTRIES);
        stage.dcf(node, &[1]);
        stage.write(node, &long);
        stage.now = u64::MAX;
        stage.read(node);
        stage.now = time;
    }
    clear(stage);
}

/// Eight connections that end at one ask; then two that end ahead of a command.
pub fn ends_together(stage: &mut Stage) {
    fill(stage);
    establish_all(stage);
    stage.ask();
    for _ in 0..2 {
        let node = free_node(stage);
        stage.dcf(node, &NO_ENTRIES);
    }
    establish_all(stage);
    let last = stage.table().held.last().map_or(0, |held| held.node);
    let node = (last..=u8::MAX).find(|node| stage.held(*node).is_none());
    stage.read(node.unwrap_or(0));
    // The refused ask has ended nothing.
    let time = stage.now;
    stage.now = u64::MAX;
    stage.ask();
    stage.now = time;
    stage.ask();
    clear(stage);
}

fn establish_all(stage: &mut Stage) {
    let nodes: Vec<u8> = stage.table().held.iter().map(|held| held.node).collect();
    for node in &nodes {
        ask_for(stage, *node);
    }
    for node in nodes {
        stage.answer(node, |_| {});
    }
}

/// Three nodes: the highest has sent its opening first, the lowest has sent nothing.
pub fn walks(stage: &mut Stage) {
    let free = (1..=u8::MAX).filter(|node| stage.held(*node).is_none());
    let nodes: Vec<u8> = free.take(3).collect();
    let [low, middle, high] = nodes[..] else {
        return;
    };
    stage.dcf(high, &TWO_ENTRIES);
    ask_for(stage, high);
    let first = stage.held(high).and_then(|held| held.deadline);
    stage.now = stage.now.saturating_add(5);
    stage.write(middle, &[1, 2]);
    stage.read(low);
    // The least deadline is the highest node's; all three are due a little later.
    stage.now = first.unwrap_or(stage.now).saturating_add(5);
    stage.tick();
    stage.ask();
    stage.ask();
    let deadlines = stage.table().held.iter().filter_map(|held| held.deadline);
    stage.now = deadlines.max().unwrap_or(stage.now);
    stage.tick();
    stage.tick();
    clear(stage);
}
