//! Times near 2^64, where a deadline just fits or does not.

use super::timeouts::use_up_retries;
use super::{ask_for, clear, free_node, reach, At, TWO_ENTRIES};
use crate::generate::stage::Stage;

/// Each call that sets a deadline, at the last time that fits and at the first that does not.
pub fn deadlines(stage: &mut Stage) {
    clear(stage);
    let early = stage.now;
    let fits = u64::MAX - stage.timeout();
    // With timeout 0 every time fits.
    let late = fits.saturating_add(1);
    starts(stage, fits, late);
    let node = reach(stage, At::Start);
    for time in [late, fits] {
        stage.now = time;
        ask_for(stage, node);
    }
    stage.now = early;
    clear(stage);
    ticks(stage, &[late, fits, u64::MAX, u64::MAX]);
    let node = reach(stage, At::Opening);
    use_up_retries(stage, node);
    // An abort sets no deadline, so it goes out at any time.
    ticks_on(stage, &[late]);
    stage.now = early;
    clear(stage);
}

fn starts(stage: &mut Stage, fits: u64, late: u64) {
    let early = stage.now;
    let node = free_node(stage);
    let long = stage.rng.bytes(4_093);
    stage.now = late;
    stage.write(node, &[1]);
    stage.read(node);
    stage.dcf(node, &TWO_ENTRIES);
    stage.write(node, &long);
    stage.dcf(node, &[1, 0]);
    stage.now = fits;
    stage.write(node, &[1]);
    stage.now = early;
    clear(stage);
}

/// Ticks on a connection that waits for the answer to its opening.
fn ticks(stage: &mut Stage, times: &[u64]) {
    let early = stage.now;
    reach(stage, At::Opening);
    ticks_on(stage, times);
    stage.now = early;
    clear(stage);
}

fn ticks_on(stage: &mut Stage, times: &[u64]) {
    for time in times {
        stage.now = *time;
        stage.tick();
    }
}
