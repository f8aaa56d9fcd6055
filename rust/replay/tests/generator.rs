//! The drawn traces: every run has the same ones, they reach everything, and the oracle says the same
//! to them as a stream.

#![cfg(has_oracle)]

use replay_oracle::head::Modes;
use replay_oracle::rules::NOT_PUBLISHED;
use replay_oracle::{cover, generate, stream};

/// So many records reach every rule, with something to spare.
const ENOUGH: usize = 500_000;
const SEEDS: std::ops::Range<u64> = 0..60;
const BOTH: [Modes; 2] = [Modes::REPOSITORY, Modes::PUBLISHED];

#[test]
fn the_same_seed_gives_the_same_trace() {
    for (seed, modes) in SEEDS.flat_map(|seed| BOTH.map(|modes| (seed, modes))) {
        let [first, second] = [seed, seed].map(|seed| generate::drawn(modes, seed).unwrap());
        assert_eq!(first.with_head(), second.with_head(), "{seed}");
        assert_eq!(first.lines, second.lines, "{seed}");
    }
}

#[test]
fn other_seeds_give_other_traces() {
    let traces = SEEDS.map(|seed| generate::drawn(Modes::REPOSITORY, seed).unwrap());
    let traces = traces.map(|run| run.with_head());
    let mut traces: Vec<_> = traces.filter(|trace| trace.len() > 500).collect();
    let drawn = traces.len();
    assert!(drawn > 40, "{drawn}");
    traces.sort();
    traces.dedup();
    assert_eq!(traces.len(), drawn);
}

#[test]
fn every_rule_is_reached() {
    for modes in BOTH {
        let covered = cover::each_trace(modes, ENOUGH, 0, |_, _| Ok(())).unwrap();
        assert_eq!(covered.counts.missing(modes), []);
        let ruled_out = NOT_PUBLISHED.map(|rule| covered.counts.of(rule) > 0);
        assert_eq!(ruled_out, [!modes.published; 2]);
    }
}

#[test]
fn the_oracle_as_a_stream_says_the_same() {
    let mut absent = 0;
    for seed in SEEDS {
        for modes in BOTH {
            let run = generate::drawn(modes, seed).unwrap();
            let mut lines = Vec::new();
            stream::with_state(&run.with_head()[..], &mut lines).unwrap();
            assert!(lines == run.lines, "seed {seed}");
        }
        let run = generate::drawn(Modes::REPOSITORY, seed).unwrap();
        if run.head.is_plain() {
            absent += 1;
            let [mut plain, mut values] = [vec![], vec![]];
            stream::plain(&run.records[..], &mut plain).unwrap();
            assert!(plain == run.plain_lines(), "seed {seed}");
            stream::values(&run.records[..], &mut values).unwrap();
            assert!(values == run.values, "seed {seed}");
        }
    }
    assert!(absent > 10, "{absent}");
}

#[test]
fn the_longest_trace_stops_at_its_last_record() {
    let run = generate::longest(Modes::REPOSITORY).unwrap();
    let lines = String::from_utf8(run.plain_lines()).unwrap();
    assert_eq!(lines.lines().count(), 65_535);
    assert!(run.records.len() > 65_535 * 32);
    let mut plain = Vec::new();
    stream::plain(&run.records[..], &mut plain).unwrap();
    assert!(plain == lines.as_bytes());
}
