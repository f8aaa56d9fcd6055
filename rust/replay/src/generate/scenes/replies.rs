//! Replies, right and wrong, at each stage of a connection.

use super::{ask_for, clear, play, reach, At, OUTSTANDING};
use crate::generate::stage::{
    Reply, Stage, COMPLETE, EXPEDITED, INITIALIZATION, INITIATE, SEGMENT, VALID,
};
use record::ABORT;

/// Nodes not held, nothing outstanding, another receive number.
pub fn ignored(stage: &mut Stage) {
    let node = super::free_node(stage);
    let reply = Reply {
        node,
        receive: 0,
        receive_state: INITIALIZATION,
        send: 0,
        send_state: INITIALIZATION,
        flags: 0,
        payload: Vec::new(),
    };
    stage.reply(&reply);
    stage.read(node);
    stage.reply(&reply);
    ask_for(stage, node);
    stage.answer(node, |reply| reply.receive ^= 1);
    stage.answer(node, |_| {});
    clear(stage);
}

/// A duplicate number, with and without the abort mark; then the connection goes on.
pub fn duplicates(stage: &mut Stage) {
    // In UploadInit nothing could end it then; `stuck` is that scene.
    for at in [At::Opening, At::Sent, At::Upload] {
        for mark in [0, ABORT] {
            duplicate(stage, at, mark);
        }
    }
}

/// A duplicate number while bytes of a transfer remain.
pub fn at_a_part(stage: &mut Stage) {
    duplicate(stage, At::Part, 0);
}

fn duplicate(stage: &mut Stage, at: At, mark: u8) {
    let node = reach(stage, at);
    stage.answer(node, |reply| {
        reply.send = (reply.send + 63) % 64;
        reply.flags |= mark;
    });
    // Now nothing is outstanding, and no deadline is set.
    stage.tick();
    play(stage, node);
    clear(stage);
}

/// A duplicate number in UploadInit leaves a connection that no call can move.
pub fn stuck(stage: &mut Stage) {
    let node = reach(stage, At::UploadInit);
    stage.answer(node, |reply| reply.send = (reply.send + 63) % 64);
    stage.ask();
    stage.tick();
    stage.read(node);
}

/// A number that is not the successor, with and without the abort mark.
pub fn out_of_sequence(stage: &mut Stage) {
    for (at, mark) in OUTSTANDING.into_iter().zip([0, ABORT, 0, 0]) {
        let node = reach(stage, at);
        let skipped = 1 + stage.rng.below(62) as u8;
        stage.answer(node, |reply| {
            reply.send = (reply.send + skipped) % 64;
            reply.flags |= mark;
        });
    }
}

/// The abort mark with payloads of none to eight bytes.
pub fn aborted(stage: &mut Stage) {
    for length in 0..=8 {
        let node = reach(stage, OUTSTANDING[length % OUTSTANDING.len()]);
        let payload = stage.rng.bytes(length);
        stage.answer(node, |reply| {
            reply.flags |= ABORT;
            reply.payload = payload;
        });
    }
}

/// Openings that are answered with one state or none that says Initialization.
pub fn openings(stage: &mut Stage) {
    for states in [(INITIALIZATION, VALID), (VALID, INITIALIZATION), (0, 3)] {
        let node = reach(stage, At::Opening);
        stage.answer(node, |reply| {
            (reply.receive_state, reply.send_state) = states
        });
    }
}

/// Every segmentation at both stages of an upload, with and without a payload.
pub fn uploads(stage: &mut Stage) {
    for at in [At::UploadInit, At::Upload] {
        for segmentation in [EXPEDITED, INITIATE, SEGMENT, COMPLETE] {
            for length in [0, 1, 40] {
                let node = reach(stage, at);
                let payload = stage.rng.bytes(length);
                stage.answer(node, |reply| {
                    reply.flags |= segmentation;
                    reply.payload = payload;
                });
                ask_for(stage, node);
                stage.answer(node, |reply| {
                    reply.flags |= COMPLETE;
                    reply.payload = vec![1, 2, 3];
                });
            }
        }
    }
}

/// Uploads up to 4,096 bytes and past them. What is refused is answered again, with less.
pub fn upload_room(stage: &mut Stage) {
    let node = reach(stage, At::UploadInit);
    let payload = stage.rng.bytes(4_097);
    send(stage, node, EXPEDITED, &payload);
    send(stage, node, EXPEDITED, &payload[..9]);
    let node = reach(stage, At::Upload);
    send(stage, node, SEGMENT, &payload[..4_090]);
    ask_for(stage, node);
    for segmentation in [SEGMENT, COMPLETE] {
        send(stage, node, segmentation, &payload[..7]);
    }
    send(stage, node, SEGMENT, &payload[..2]);
    ask_for(stage, node);
    send(stage, node, COMPLETE, &payload[..4]);
}

fn send(stage: &mut Stage, node: u8, segmentation: u8, payload: &[u8]) {
    stage.answer(node, |reply| {
        reply.flags |= segmentation;
        reply.payload = payload.to_vec();
    });
}
