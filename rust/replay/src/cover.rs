//! The drawn traces, one after the other, and what they reached. With the oracle alone this shows
//! whether the generator gets everywhere.

use crate::counts::Counts;
use crate::generate::{self, Run};
use crate::head::Modes;
use record::{MOST_RECORDS, RECORD_BYTES};
use std::io;

/// What traces reached together, and how much there was of them.
#[derive(Default)]
pub struct Covered {
    modes: Modes,
    pub counts: Counts,
    traces: usize,
    records: usize,
}

impl Covered {
    pub fn text(&self) -> String {
        self.counts.text(self.modes) + &self.size()
    }

    pub fn size(&self) -> String {
        format!("{} traces, {} records\n", self.traces, self.records)
    }
}

/// Makes traces from the first seed on until they have so many records, and hands each over with its
/// name; the last is the longest one, if it is not more than was asked for.
pub fn each_trace(
    modes: Modes,
    records: usize,
    first_seed: u64,
    mut take: impl FnMut(&str, &Run) -> io::Result<()>,
) -> io::Result<Covered> {
    let mut covered = Covered {
        modes,
        ..Covered::default()
    };
    let mut hand_over = |name: &str, run: Result<Run, String>| {
        let run = run.map_err(|error| io::Error::other(format!("{name}: {error}")))?;
        let made = run.records.len() / RECORD_BYTES;
        covered.counts.add(&run.counts);
        covered.traces += 1;
        covered.records += made;
        take(name, &run)?;
        Ok::<usize, io::Error>(made)
    };
    let longest = MOST_RECORDS as usize;
    let mut left = records;
    if records >= longest {
        left -= longest;
    }
    for seed in first_seed.. {
        if left == 0 {
            break;
        }
        let made = hand_over(&format!("seed {seed}"), generate::drawn(modes, seed))?;
        left = left.saturating_sub(made);
    }
    if records >= longest {
        hand_over("the longest trace", generate::longest(modes))?;
    }
    Ok(covered)
}
