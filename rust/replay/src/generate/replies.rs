//! Drawn replies: right for the state that the oracle is in, or wrong on purpose.

use super::draw;
use super::stage::{Reply, Stage, COMPLETE, EXPEDITED, INITIALIZATION, INITIATE, SEGMENT, VALID};
use super::steps::Theme;
use crate::table::{Held, State};
use record::{ABORT, RESPONSE};

/// How many connections that no call can move a trace may come to hold.
const MOST_STUCK: usize = 2;

/// Receive and send states, of which no pair opens.
const NOT_OPENING: [(u8, u8); 5] = [
    (VALID, INITIALIZATION),
    (INITIALIZATION, VALID),
    (VALID, VALID),
    (0, 0),
    (3, 3),
];

/// A held connection, drawn among those that the condition holds of.
fn some_held(stage: &mut Stage, condition: impl Fn(&Held) -> bool) -> Option<Held> {
    let held = stage.table().held.iter().filter(|held| condition(held));
    let held: Vec<Held> = held.cloned().collect();
    if held.is_empty() {
        return None;
    }
    Some(held[stage.rng.below(held.len())].clone())
}

/// A reply that moves its connection on; where no command is outstanding, an ask.
pub fn right(stage: &mut Stage, theme: Theme) {
    let Some(held) = some_held(stage, |held| held.outstanding.is_some()) else {
        return stage.ask();
    };
    let (segmentation, length) = right_command(stage, theme, &held);
    let low = if stage.rng.one_in(4) {
        stage.rng.byte() & 0x1F
    } else {
        RESPONSE
    };
    let payload = stage.rng.bytes(length);
    // After the opening any states will do.
    let states = if held.state == State::Opening || !stage.rng.one_in(4) {
        None
    } else {
        Some((stage.rng.byte() & 3, stage.rng.byte() & 3))
    };
    stage.answer(held.node, |reply| {
        reply.flags = segmentation | low;
        reply.payload = payload;
        if let Some((receive, send)) = states {
            reply.receive_state = receive;
            reply.send_state = send;
        }
    });
}

/// The segmentation of a reply that moves its connection on, and how long its payload is.
fn right_command(stage: &mut Stage, theme: Theme, held: &Held) -> (u8, usize) {
    let many = if theme == Theme::Values { 500 } else { 150 };
    match held.state {
        State::UploadInit => {
            let expedited = stage.rng.one_in(replies_of(theme));
            let length = draw::upload_length(&mut stage.rng, 0, many);
            if expedited {
                (EXPEDITED, length)
            } else {
                (INITIATE, length.min(20))
            }
        }
        State::UploadInProgress => {
            let length = draw::upload_length(&mut stage.rng, held.buffer.len(), many);
            let complete = stage.rng.one_in(replies_of(theme));
            (if complete { COMPLETE } else { SEGMENT }, length)
        }
        // Nothing of the command is looked at.
        _ => (stage.rng.byte() & COMPLETE, 0),
    }
}

/// How many replies an upload has, on the whole.
fn replies_of(theme: Theme) -> usize {
    match theme {
        Theme::Reads => 8,
        Theme::Patient => 150,
        _ => 3,
    }
}

/// A reply that is wrong in one way, or in any.
pub fn wrong(stage: &mut Stage, nodes: &[u8]) {
    let length = stage.rng.below(9);
    let payload = stage.rng.bytes(length);
    let held = some_held(stage, |held| held.outstanding.is_some());
    let kind = stage.rng.below(16);
    let (Some(held), true) = (held, kind > 2) else {
        // For a node that waits for nothing, or that is not held.
        let node = if kind == 0 {
            stage.rng.byte()
        } else {
            stage.rng.pick(nodes)
        };
        let reply = any_reply(stage, node, payload);
        return stage.reply(&reply);
    };
    let number = stage.rng.byte() & 63;
    let mark = if stage.rng.one_in(3) { ABORT } else { 0 };
    let states = stage.rng.pick(&NOT_OPENING);
    let segmentation = stage.rng.pick(&[EXPEDITED, INITIATE, SEGMENT, COMPLETE]);
    let duplicate = may_be_duplicate(stage, &held);
    stage.answer(held.node, |reply| {
        reply.payload = payload;
        match kind {
            3 | 4 => reply.receive = number,
            5..8 if duplicate => {
                reply.send = held.last;
                reply.flags |= mark;
            }
            8 | 9 => {
                reply.send = number;
                reply.flags |= mark;
            }
            10..13 => reply.flags |= ABORT | segmentation,
            13 => (reply.receive_state, reply.send_state) = states,
            _ => reply.flags |= segmentation,
        }
    });
}

/// A duplicate number in UploadInit leaves a connection that no call can move; there are few of these.
fn may_be_duplicate(stage: &Stage, held: &Held) -> bool {
    let stuck = |held: &&Held| held.state == State::UploadInit && held.outstanding.is_none();
    let few = stage.table().held.iter().filter(stuck).count() < MOST_STUCK;
    held.state != State::UploadInit || few
}

fn any_reply(stage: &mut Stage, node: u8, payload: Vec<u8>) -> Reply {
    let [receive, send, states, flags, ..] = stage.rng.next().to_be_bytes();
    Reply {
        node,
        receive: receive & 63,
        receive_state: states & 3,
        send: send & 63,
        send_state: states >> 2 & 3,
        flags,
        payload,
    }
}
