//! Drawn steps: what comes next is drawn by the theme of the trace, and fits the state that the
//! oracle is in, or misses it on purpose.

use super::draw;
use super::replies;
use super::stage::Stage;
use record::{LENGTH, OPERATION, RECORD_BYTES};

/// What the steps of a trace are mostly about.
#[derive(Debug, Clone, Copy, PartialEq, Eq)]
pub enum Theme {
    Mixed,
    Writes,
    Reads,
    Dcfs,
    Timeouts,
    Crowd,
    Late,
    Noise,
    Numbers,
    /// Long jobs that nothing disturbs, so that sequence numbers come round.
    Patient,
    /// Many nodes whose reads mostly end Complete, with writes and DCFs between them.
    Values,
    /// Transfers whose totals lie around the limits of a first part.
    Parts,
}

impl Theme {
    /// Those that are drawn from; traces about values and about parts have seeds of their own.
    pub const ALL: [Self; 10] = [
        Self::Mixed,
        Self::Writes,
        Self::Reads,
        Self::Dcfs,
        Self::Timeouts,
        Self::Crowd,
        Self::Late,
        Self::Noise,
        Self::Numbers,
        Self::Patient,
    ];

    /// How often each kind of step is drawn: start, ask, right reply, wrong reply, tick, noise.
    fn weights(self) -> [usize; 6] {
        match self {
            Self::Mixed => [4, 12, 12, 3, 3, 1],
            Self::Writes => [2, 16, 16, 1, 1, 0],
            Self::Reads => [3, 16, 16, 2, 1, 0],
            Self::Dcfs => [3, 16, 16, 1, 1, 0],
            Self::Timeouts => [4, 6, 4, 1, 12, 0],
            Self::Crowd => [8, 12, 10, 1, 3, 0],
            Self::Late => [4, 8, 6, 1, 6, 0],
            Self::Noise => [3, 8, 8, 8, 3, 10],
            Self::Numbers => [20, 4, 4, 1, 1, 0],
            Self::Patient => [1, 20, 20, 0, 0, 0],
            Self::Values => [12, 16, 32, 2, 1, 1],
            Self::Parts => [2, 14, 14, 2, 6, 0],
        }
    }

    /// The most nodes that a trace is about.
    fn most_nodes(self) -> usize {
        match self {
            Self::Writes | Self::Patient => 2,
            Self::Reads | Self::Dcfs | Self::Parts => 3,
            Self::Numbers => 5,
            Self::Crowd => 12,
            _ => 10,
        }
    }
}

/// The nodes that a trace is about. Both ends of the range come often.
pub fn draw_nodes(stage: &mut Stage, theme: Theme) -> Vec<u8> {
    let least = match theme {
        Theme::Crowd => 9,
        // More than may come to be stuck.
        Theme::Values => 5,
        _ => 1,
    };
    let count = least + stage.rng.below(theme.most_nodes() - least + 1);
    (0..count)
        .map(|_| match stage.rng.below(8) {
            0 => 0,
            1 => 255,
            2..5 => stage.rng.below(12) as u8,
            _ => stage.rng.byte(),
        })
        .collect()
}

/// One step, which may take many records to gather its bytes.
pub fn step(stage: &mut Stage, theme: Theme, nodes: &[u8]) {
    pass_time(stage, theme);
    let weights = theme.weights();
    let mut drawn = stage.rng.below(weights.iter().sum());
    let kind = weights.iter().position(|weight| {
        let here = drawn < *weight;
        drawn = drawn.wrapping_sub(*weight);
        here
    });
    match kind {
        Some(0) => start(stage, theme, nodes),
        Some(1) => stage.ask(),
        Some(2) => replies::right(stage, theme),
        Some(3) => replies::wrong(stage, nodes),
        Some(4) => tick(stage),
        _ => noise(stage),
    }
}

fn pass_time(stage: &mut Stage, theme: Theme) {
    if theme == Theme::Late && stage.rng.one_in(2) {
        let timeout = stage.timeout();
        stage.now = draw::late_time(&mut stage.rng, timeout);
        return;
    }
    let passed = stage.rng.pick(&[0, 0, 1, 1_000, 1_000_000]);
    // A time near the end of its range is followed by an early one.
    stage.now = stage.now.checked_add(passed).unwrap_or(0);
}

fn start(stage: &mut Stage, theme: Theme, nodes: &[u8]) {
    let mut node = stage.rng.pick(nodes);
    // A long job that gets Busy would only be a hundred gathers.
    if theme == Theme::Parts && stage.held(node).is_some() && !stage.rng.one_in(50) {
        return stage.ask();
    }
    // A busy node is taken less often than chance would.
    if stage.held(node).is_some() && theme != Theme::Numbers && !stage.rng.one_in(4) {
        node = stage.rng.pick(nodes);
    }
    let before = stage.now;
    if stage.rng.one_in(16) {
        stage.now = u64::MAX;
    }
    let job = match theme {
        Theme::Writes => 0,
        Theme::Reads => 1,
        Theme::Dcfs => 2,
        Theme::Patient => 1 + stage.rng.below(2),
        Theme::Values => stage.rng.pick(&[0, 1, 1, 1, 1, 1, 1, 2]),
        Theme::Parts => stage.rng.pick(&[0, 2]),
        _ => stage.rng.below(3),
    };
    match job {
        0 => start_write(stage, theme, node),
        1 => stage.read(node),
        _ => start_dcf(stage, theme, node),
    }
    stage.now = before;
}

fn start_write(stage: &mut Stage, theme: Theme, node: u8) {
    let seldom = if theme == Theme::Writes { 4 } else { 60 };
    let length = if theme == Theme::Parts {
        draw::length_around_limits(&mut stage.rng)
    } else if stage.rng.one_in(seldom) {
        draw::edge_length(&mut stage.rng)
    } else {
        draw::short_length(&mut stage.rng)
    };
    let data = stage.rng.bytes(length);
    stage.write(node, &data);
}

fn start_dcf(stage: &mut Stage, theme: Theme, node: u8) {
    let rng = &mut stage.rng;
    let dcf = match theme {
        Theme::Crowd if rng.one_in(2) => vec![0; 4],
        Theme::Dcfs if rng.one_in(30) => draw::long_dcf(rng),
        Theme::Parts => draw::dcf_around_limits(rng),
        Theme::Patient => {
            let more = rng.pick(&[20, 20, 20, 600]);
            let entries = 60 + rng.below(more);
            draw::many_entries(rng, entries)
        }
        _ => draw::any_dcf(rng),
    };
    stage.dcf(node, &dcf);
}

/// A tick around a deadline, or at any time.
fn tick(stage: &mut Stage) {
    let held = stage.table().held.iter();
    let deadlines: Vec<u64> = held.filter_map(|held| held.deadline).collect();
    let before = stage.now;
    let kind = stage.rng.below(8);
    if !deadlines.is_empty() && kind < 6 {
        let deadline = stage.rng.pick(&deadlines);
        stage.now = match kind {
            0 => deadline.saturating_sub(1),
            1 => deadline.saturating_add(1),
            2 => deadlines.iter().copied().max().unwrap_or(deadline),
            _ => deadline,
        };
    } else if kind == 6 {
        stage.now = stage.rng.next();
    }
    stage.tick();
    // Time mostly goes on from an earlier one, so that deadlines stay near.
    if stage.rng.one_in(2) {
        stage.now = before;
    }
}

/// Records that are bad, and gathers that no start or reply asked for.
fn noise(stage: &mut Stage) {
    let mut bytes = [0; RECORD_BYTES];
    if stage.rng.one_in(2) {
        for byte in &mut bytes {
            *byte = stage.rng.byte();
        }
    }
    match stage.rng.below(6) {
        0 => bytes[OPERATION] = 0,
        1 => bytes[OPERATION] = 8,
        2 => {
            bytes[OPERATION] = 1 + stage.rng.below(7) as u8;
            bytes[LENGTH] = stage.rng.pick(&[17, 18, 128, 255]);
        }
        3 => {
            // Whatever its fields, it is a record.
            bytes[OPERATION] = 1 + stage.rng.below(7) as u8;
            bytes[LENGTH] %= 17;
        }
        4 => {
            let length = stage.rng.below(40);
            let gathered = stage.rng.bytes(length);
            return stage.gather(&gathered);
        }
        _ => bytes[OPERATION] = stage.rng.byte(),
    }
    stage.push(bytes);
}
