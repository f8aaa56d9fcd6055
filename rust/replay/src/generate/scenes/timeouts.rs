//! Timeouts at each stage of a connection.

use super::{clear, reach, At, OUTSTANDING};
use crate::generate::stage::Stage;

/// How many deadlines are waited for; with more retries than that the connection is left.
const MOST_TICKS: usize = 4;

/// Ticks just before a deadline, at it and after it, until the connection has ended.
pub fn at_each_stage(stage: &mut Stage) {
    clear(stage);
    for at in [At::Start].into_iter().chain(OUTSTANDING) {
        time_out(stage, at);
    }
}

/// The same while bytes of a transfer remain.
pub fn at_a_part(stage: &mut Stage) {
    time_out(stage, At::Part);
}

fn time_out(stage: &mut Stage, at: At) {
    let node = reach(stage, at);
    for late in 0..MOST_TICKS {
        let Some(deadline) = deadline(stage, node) else {
            break;
        };
        for time in [deadline.checked_sub(1), deadline.checked_add(late as u64)] {
            stage.now = time.unwrap_or(deadline);
            stage.tick();
        }
    }
    clear(stage);
}

/// With retries 0: a tick at the deadline before anything was sent gives document 01's abort.
pub fn first_abort(stage: &mut Stage) {
    let node = reach(stage, At::Start);
    if let Some(deadline) = deadline(stage, node) {
        stage.now = deadline;
        stage.tick();
    }
}

/// Ticks at a node's deadlines until it has no retries left, if these are few.
pub fn use_up_retries(stage: &mut Stage, node: u8) {
    for _ in 0..MOST_TICKS {
        if stage.held(node).is_some_and(|held| held.retries > 0) {
            stage.now = deadline(stage, node).unwrap_or(stage.now);
            stage.tick();
        }
    }
}

fn deadline(stage: &Stage, node: u8) -> Option<u64> {
    stage.held(node)?.deadline
}
