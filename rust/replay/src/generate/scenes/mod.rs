//! Scenes: short plays that reach what drawn steps reach seldom, or never. Each takes a stage in any
//! state and leaves it with as little held as it can.

mod dcfs;
mod jobs;
mod late;
mod numbers;
mod parts;
mod reads;
mod replay;
mod replies;
mod table;
mod timeouts;

use super::stage::{Stage, INITIATE};
use crate::table::State;
use record::ABORT;

pub use replies::{stuck, upload_room};
pub use timeouts::first_abort;

pub type Scene = fn(&mut Stage);

/// Scenes of some dozen records each.
pub const SCENES: [Scene; 14] = [
    jobs::document_run,
    dcfs::every_cut,
    dcfs::counts,
    dcfs::sizes,
    dcfs::idle,
    replies::ignored,
    replies::duplicates,
    replies::out_of_sequence,
    replies::aborted,
    replies::openings,
    replies::uploads,
    timeouts::at_each_stage,
    table::ends_together,
    table::walks,
];

/// Scenes of hundreds of records each, mostly gathers.
pub const LONG_SCENES: [Scene; 10] = [
    jobs::part_edges,
    jobs::longest_write,
    jobs::longest_dcf,
    replies::at_a_part,
    timeouts::at_a_part,
    table::ninth,
    late::deadlines,
    numbers::sends_round,
    numbers::transactions_round,
    replay::records,
];

/// Scenes that show what has a line of values and what has none.
pub const VALUE_SCENES: [Scene; 10] = [
    jobs::document_run,
    replies::uploads,
    reads::together,
    replies::ignored,
    replies::duplicates,
    replies::out_of_sequence,
    replies::aborted,
    replies::openings,
    timeouts::at_each_stage,
    replies::upload_room,
];

/// Scenes of transfers around the limits of a first part.
pub const PART_SCENES: [Scene; 5] = [
    jobs::part_edges,
    parts::entries,
    parts::disturbed,
    replies::at_a_part,
    timeouts::at_a_part,
];

/// The stages of a connection, at which replies and timeouts meet it.
#[derive(Debug, Clone, Copy, PartialEq, Eq)]
enum At {
    /// Started, and nothing was sent.
    Start,
    Opening,
    /// A write's first part of several was sent.
    Part,
    /// Everything of a DCF's second entry was sent.
    Sent,
    UploadInit,
    Upload,
}

/// The stages with a command outstanding; that of a part takes many records to come to.
const OUTSTANDING: [At; 4] = [At::Opening, At::Sent, At::UploadInit, At::Upload];

/// Two entries, as in document 01's P7.
const TWO_ENTRIES: [u8; 20] = [
    2, 0, 0, 0, 0x00, 0x21, 1, 2, 0, 0, 0, 0x01, 0x04, 0x01, 0x21, 0, 0, 0, 0, 0,
];

/// A node that is not held.
fn free_node(stage: &mut Stage) -> u8 {
    let from = if stage.loose { stage.rng.byte() } else { 1 };
    let mut nodes = (0..=u8::MAX).map(|step| from.wrapping_add(step));
    let free = nodes.find(|node| stage.held(*node).is_none());
    free.unwrap_or(from)
}

/// Asks until the node has a command outstanding; the others' commands are left as they are.
fn ask_for(stage: &mut Stage, node: u8) {
    for _ in 0..stage.table().held.len() {
        match stage.held(node) {
            Some(held) if held.outstanding.is_none() => stage.ask(),
            _ => return,
        }
    }
}

/// Asks, and answers rightly, until the node has ended or moves no more.
fn play(stage: &mut Stage, node: u8) {
    while stage.held(node).is_some() {
        ask_for(stage, node);
        if !stage.answer(node, |_| {}) {
            return;
        }
    }
}

/// Starts a job on a free node and brings it to the stage. It answers the node.
fn reach(stage: &mut Stage, at: At) -> u8 {
    let node = free_node(stage);
    match at {
        At::Start | At::Opening | At::UploadInit | At::Upload => stage.read(node),
        At::Part => stage.write(node, &[7; 1_449]),
        At::Sent => stage.dcf(node, &TWO_ENTRIES),
    }
    if at == At::Start {
        return node;
    }
    ask_for(stage, node);
    if at == At::Opening {
        return node;
    }
    stage.answer(node, |_| {});
    ask_for(stage, node);
    match at {
        At::Sent => stage.answer(node, |_| {}),
        At::Upload => stage.answer(node, |reply| reply.flags |= INITIATE),
        _ => return node,
    };
    ask_for(stage, node);
    node
}

/// Ends everything that can be ended: what waits for a reply gets the abort mark.
fn clear(stage: &mut Stage) {
    let nodes: Vec<u8> = stage.table().held.iter().map(|held| held.node).collect();
    for node in nodes {
        let held = stage.held(node);
        if held.is_some_and(|held| held.state == State::Idle) {
            stage.read(node);
        }
        ask_for(stage, node);
        stage.answer(node, |reply| reply.flags |= ABORT);
    }
}
