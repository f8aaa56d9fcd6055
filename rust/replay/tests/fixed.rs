//! The fixed traces and lines: what stands in samples and in the crates' folders is what the oracle says
//! now, and it reaches every rule that such files can.

#![cfg(has_oracle)]

use replay_oracle::head::Modes;
use replay_oracle::rules::Rule;
use replay_oracle::{fixed, generate, stream};
use std::fs;
use std::path::Path;

/// One trace cannot end or begin in two ways, a file of 65,535 records is too long, and three traces
/// have three pairs of parameters.
const NOT_REACHED: [Rule; 7] = [
    Rule::ShortFirst,
    Rule::Empty,
    Rule::Limit,
    Rule::Timeout0,
    Rule::Timeout1,
    Rule::Retries2,
    Rule::RetriesLarge,
];

fn file(name: &str) -> Vec<u8> {
    let files = fixed::files().unwrap().0;
    let found = files.into_iter().find(|(found, _)| *found == name);
    found.unwrap().1
}

/// `replay_oracle fixed ROOT` writes them anew.
#[test]
fn the_files_are_those_that_stand_here() {
    let folder = Path::new(env!("CARGO_MANIFEST_DIR")).join("../..");
    for (name, bytes) in fixed::files().unwrap().0 {
        let found = fs::read(folder.join(name)).unwrap();
        assert!(found == bytes, "{name} is not what the oracle says now");
    }
}

#[test]
fn they_reach_every_other_rule_in_a_few_thousand_records() {
    let (files, counts) = fixed::files().unwrap();
    let [repository, published] = counts;
    assert_eq!(repository.missing(Modes::REPOSITORY), NOT_REACHED);
    assert_eq!(published.missing(Modes::PUBLISHED), []);
    let is_trace = |name: &str| name.ends_with("/stdin") || name.ends_with(".records");
    let traces = files.iter().filter(|(name, _)| is_trace(name));
    let records: usize = traces.map(|(_, trace)| trace.len() / 32).sum();
    assert!(records < 9_000, "{records}");
}

#[test]
fn the_oracle_as_a_stream_says_the_same() {
    let mut lines = Vec::new();
    stream::plain(&file("samples/fixed.records")[..], &mut lines).unwrap();
    assert!(lines == file("samples/fixed.lines"));
    for (records, expected) in [
        ("crates/replay_states/stdin", "crates/replay_states/stdout"),
        ("samples/retries.records", "samples/retries.lines"),
        ("samples/published.records", "samples/published.lines"),
    ] {
        let mut lines = Vec::new();
        stream::with_state(&file(records)[..], &mut lines).unwrap();
        assert!(lines == file(expected), "{records}");
    }
    let mut lines = Vec::new();
    stream::values(&file("crates/values/stdin")[..], &mut lines).unwrap();
    assert!(lines == file("crates/values/stdout"));
}

#[test]
fn the_edges_of_document_01() {
    let replay = String::from_utf8(file("samples/fixed.lines")).unwrap();
    let run = "\
1 1 0 - - -
2 6 0 5 FC0100000001000000000000 -
3 4 0 - - -
4 6 0 5 020700000001000106000000002101000104 -
5 4 0 - - 5:C:1
";
    assert!(replay.starts_with(run));
    assert!(replay.ends_with(" - 11 - - -\n"));
    let state = String::from_utf8(file("crates/replay_states/stdout")).unwrap();
    let abort = state.lines().nth(2).unwrap();
    assert_eq!(abort, "2 5 0 1 FE000000000120000400000000000405 1:T:0");
}

/// Reads of each kind stand in the sample of values, and it ends inside a record.
#[test]
fn the_sample_of_values() {
    let run = generate::fixed_values().unwrap();
    for rule in [
        Rule::UploadExpedited,
        Rule::UploadComplete,
        Rule::UploadNothing,
        Rule::Upload4096,
        Rule::EndBadSegment,
        Rule::EndPeerAborted,
        Rule::NoRoomComplete,
        Rule::DuplicateUpload,
        Rule::EndWrite,
        Rule::EightHeld,
        Rule::ShortLater,
    ] {
        assert!(run.counts.of(rule) > 0, "{rule:?}");
    }
    let lines = run.values.iter().filter(|byte| **byte == b'\n').count();
    assert_eq!(lines as u64, run.counts.of(Rule::EndRead));
}
