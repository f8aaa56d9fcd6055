//! Traces that know the state, each the same for the same seed.

mod draw;
mod replies;
mod scenes;
mod stage;
mod steps;

use crate::counts::Counts;
use crate::head::{Head, Modes};
use oracle::ObjectDictionary;
use record::MOST_RECORDS;
use rng::Rng;
use stage::Stage;
use steps::Theme;

/// One seed in so many has a trace with its mode's own theme: values, or in published mode parts.
const SEEDS_TO_VALUES: u64 = 4;
const SEEDS_TO_PARTS: u64 = 2;
/// How long most traces may become; a step that gathers bytes may go past it.
const MOST_DRAWN: usize = 1_500;

/// A trace, and what the oracle says to it.
pub struct Run {
    pub head: Head,
    pub records: Vec<u8>,
    /// Two lines a record.
    pub lines: Vec<u8>,
    /// A line for each read that ended Complete.
    pub values: Vec<u8>,
    pub counts: Counts,
}

impl Run {
    /// The trace as replay_states takes it.
    pub fn with_head(&self) -> Vec<u8> {
        [&self.head.bytes()[..], &self.records].concat()
    }

    /// Document 01's lines, without the state lines between them.
    pub fn plain_lines(&self) -> Vec<u8> {
        let lines = self.lines.split_inclusive(|byte| *byte == b'\n');
        let plain = lines.filter(|line| line[0] != b'=');
        plain.flatten().copied().collect()
    }
}

/// The trace of a seed: the same in both modes, unless it has the mode's own theme. An error says that the
/// ledger and the repository do not agree.
pub fn drawn(modes: Modes, seed: u64) -> Result<Run, String> {
    let mut rng = Rng::new(seed.wrapping_mul(0x9E37_79B9_7F4A_7C15) ^ seed << 1);
    let seeds = match modes.published {
        false => SEEDS_TO_VALUES,
        true => SEEDS_TO_PARTS,
    };
    let own_theme = seed % seeds == seeds - 1;
    // The program `values` takes no parameters.
    let parameters = match own_theme && !modes.published {
        true => ObjectDictionary::default(),
        false => draw::parameters(&mut rng),
    };
    let mut stage = Stage::new(Head { parameters, modes }, rng);
    stage.loose = true;
    let most = match stage.rng.below(8) {
        0 => stage.rng.below(3),
        _ => stage.rng.below(MOST_DRAWN),
    };
    if own_theme {
        draw_own_theme(&mut stage, modes, most as u32);
    } else if stage.rng.one_in(5) {
        play_scenes(&mut stage, most as u32);
    } else {
        let theme = stage.rng.pick(&Theme::ALL);
        draw_steps(&mut stage, theme, most as u32);
    }
    finish(stage)
}

/// A trace that has more records than are read: of any kind, or in published mode about parts.
pub fn longest(modes: Modes) -> Result<Run, String> {
    match modes.published {
        false => longest_of(modes, Theme::Mixed),
        true => longest_of(modes, Theme::Parts),
    }
}

/// The same about values.
pub fn longest_about_values() -> Result<Run, String> {
    longest_of(Modes::REPOSITORY, Theme::Values)
}

fn longest_of(modes: Modes, theme: Theme) -> Result<Run, String> {
    let parameters = ObjectDictionary::default();
    let mut stage = Stage::new(Head { parameters, modes }, Rng::new(65_535));
    stage.loose = true;
    draw_steps(&mut stage, theme, MOST_RECORDS);
    // Its last record is read; what follows is not.
    stage.ask();
    stage.ask();
    stage.finish(&[6; 9])
}

/// Document 01's own run first, then every scene but `first_abort` and `upload_room`, with both parameters
/// absent. It ends inside a record.
pub fn fixed_replay() -> Result<Run, String> {
    let mut stage = Stage::new(Head::default(), Rng::new(1));
    play_all(&mut stage, &scenes::SCENES);
    play_all(&mut stage, &scenes::LONG_SCENES);
    scenes::stuck(&mut stage);
    stage.finish(&[1; 31])
}

/// Document 01's abort at a timeout first, then the short scenes and `upload_room`, with a short timeout
/// and retries 0.
pub fn fixed_no_retries() -> Result<Run, String> {
    let parameters = ObjectDictionary {
        timeout: Some(3),
        retries: Some(0),
    };
    let mut stage = Stage::new(in_repository_mode(parameters), Rng::new(2));
    scenes::first_abort(&mut stage);
    play_all(&mut stage, &scenes::SCENES);
    scenes::upload_room(&mut stage);
    scenes::stuck(&mut stage);
    stage.finish(&[])
}

/// The short scenes with the longest timeout and a retry, which shows where retries are cleared.
pub fn fixed_retries() -> Result<Run, String> {
    let parameters = ObjectDictionary {
        timeout: Some(u32::MAX),
        retries: Some(1),
    };
    let mut stage = Stage::new(in_repository_mode(parameters), Rng::new(3));
    play_all(&mut stage, &scenes::SCENES);
    stage.finish(&[])
}

/// The scenes about parts in published mode, with both parameters absent.
pub fn fixed_published() -> Result<Run, String> {
    let head = Head {
        modes: Modes::PUBLISHED,
        ..Head::default()
    };
    let mut stage = Stage::new(head, Rng::new(5));
    play_all(&mut stage, &scenes::PART_SCENES);
    stage.finish(&[])
}

/// The scenes about values, with drawn objects and both parameters absent. It ends inside a record.
pub fn fixed_values() -> Result<Run, String> {
    let mut stage = Stage::new(Head::default(), Rng::new(4));
    stage.loose = true;
    play_all(&mut stage, &scenes::VALUE_SCENES);
    stage.finish(&[2; 31])
}

fn in_repository_mode(parameters: ObjectDictionary) -> Head {
    Head {
        parameters,
        modes: Modes::REPOSITORY,
    }
}

fn play_all(stage: &mut Stage, scenes: &[scenes::Scene]) {
    for scene in scenes {
        scene(stage);
    }
}

fn draw_steps(stage: &mut Stage, theme: Theme, most: u32) {
    let nodes = steps::draw_nodes(stage, theme);
    while stage.records() < most {
        steps::step(stage, theme, &nodes);
    }
}

/// Draws the mode's own theme: values, or parts by steps or by scenes.
fn draw_own_theme(stage: &mut Stage, modes: Modes, most: u32) {
    if !modes.published {
        return draw_steps(stage, Theme::Values, most);
    }
    if stage.rng.one_in(2) {
        return draw_steps(stage, Theme::Parts, most);
    }
    while stage.records() < most {
        let scene = stage.rng.pick(&scenes::PART_SCENES);
        scene(stage);
    }
}

fn play_scenes(stage: &mut Stage, most: u32) {
    while stage.records() < most {
        let scene = match stage.rng.below(24) {
            0 => scenes::upload_room,
            1 | 2 => stage.rng.pick(&scenes::LONG_SCENES),
            _ => stage.rng.pick(&scenes::SCENES),
        };
        scene(stage);
    }
}

/// Ends the trace, one time in three inside a record.
fn finish(mut stage: Stage) -> Result<Run, String> {
    let length = match stage.rng.below(3) {
        0 => 1 + stage.rng.below(31),
        _ => 0,
    };
    let rest = stage.rng.bytes(length);
    stage.finish(&rest)
}
