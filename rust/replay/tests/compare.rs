//! The comparison itself, with the oracle in the place of our programs: it passes, and a program that
//! is wrong, missing or broken fails it; so does a run that compares nothing, or too little.

#![cfg(all(has_oracle, unix))]

use program::stand_in;
use std::fs;
use std::path::{Path, PathBuf};
use std::process::Command;

const ORACLE: &str = env!("CARGO_BIN_EXE_replay_oracle");

/// A folder with scripts of these names and commands.
fn folder(name: &str, scripts: &[(&str, &str)]) -> PathBuf {
    let folder = Path::new(env!("CARGO_TARGET_TMPDIR")).join(name);
    stand_in::scripts(&folder, scripts);
    folder
}

/// A folder with the oracle under the names of our programs.
fn oracles(name: &str) -> PathBuf {
    let state = format!("exec {ORACLE} state");
    let plain = format!("exec {ORACLE} plain");
    let values = format!("exec {ORACLE} values");
    let scripts = [
        ("replay_states", &state[..]),
        ("replay", &plain),
        ("values", &values),
    ];
    folder(name, &scripts)
}

/// The comparison over so many records.
fn compare(folder: &Path, records: &str) -> Command {
    let mut command = Command::new(ORACLE);
    command.args(["compare", records]);
    command.env("OSTELUMIV_BIN", folder);
    command
}

/// Whether the comparison passes, and what it prints.
fn compared(folder: &Path) -> (bool, String) {
    let output = compare(folder, "20000").output().unwrap();
    let text = String::from_utf8(output.stdout).unwrap();
    (output.status.success(), text)
}

#[test]
fn the_oracle_is_like_itself() {
    let (passed, text) = compared(&oracles("same"));
    assert!(passed, "{text}");
    assert!(!text.contains("DIFFERENCE"), "{text}");
    assert_eq!(text.matches("traces that differ: 0\n").count(), 4, "{text}");
    assert!(text.contains("\nreplay_states, published mode: "), "{text}");
    assert!(text.contains("\n13 rules, 0 never reached\n"), "{text}");
    assert!(text.contains("reads that ended Complete in the traces compared\n"));
}

#[test]
fn a_wrong_program() {
    // One invents a delivered figure, one forgets a record, and one the last byte that a read brought.
    let state = format!("{ORACLE} state | sed 's/:T:0/:T:1/'");
    let plain = format!("{ORACLE} plain | sed 's/^300 .*/300 0 0 - - -/'");
    let values = format!("{ORACLE} values | sed 's/..$//'");
    let scripts = [
        ("replay_states", &state[..]),
        ("replay", &plain),
        ("values", &values),
    ];
    let (passed, text) = compared(&folder("wrong", &scripts));
    assert!(!passed);
    assert!(text.contains("DIFFERENCE in values, seed "), "{text}");
    assert!(
        text.contains("DIFFERENCE in replay_states, seed "),
        "{text}"
    );
    assert!(text.contains("record 300\n"), "{text}");
}

#[test]
fn a_program_that_stops_early_or_fails() {
    let state = format!("{ORACLE} state | head -n 7");
    let values = format!("{ORACLE} values | head -n 1");
    let scripts = [
        ("replay_states", &state[..]),
        ("replay", "exit 3"),
        ("values", &values),
    ];
    let (passed, text) = compared(&folder("early", &scripts));
    assert!(!passed);
    assert!(text.contains("DIFFERENCE in values, seed "), "{text}");
    assert!(text.contains("record 4\n"), "{text}");
    assert!(text.contains("ours  no line"), "{text}");
    assert!(text.contains("exit status: 3"), "{text}");
}

#[test]
fn a_missing_program() {
    let state = format!("exec {ORACLE} state");
    let (passed, text) = compared(&folder("missing", &[("replay_states", &state)]));
    assert!(!passed);
    for name in ["replay", "values"] {
        let told = format!("NOT COMPARED: {name} is not in ");
        assert!(text.contains(&told), "{text}");
    }
    assert!(!text.contains("NOT COMPARED: replay_states"), "{text}");
}

#[test]
fn nothing_to_compare() {
    let output = compare(&oracles("nothing"), "0").output().unwrap();
    assert_eq!(output.status.code(), Some(1));
    let text = String::from_utf8(output.stdout).unwrap();
    for name in [
        "replay_states",
        "replay",
        "values",
        "replay_states, published mode",
    ] {
        let told = format!("NOT COMPARED: no trace has a line for {name}\n");
        assert!(text.contains(&told), "{text}");
    }
}

/// No line differs; why it fails is told last.
#[test]
fn too_little_in_published_mode() {
    let output = compare(&oracles("little"), "1000").output().unwrap();
    assert_eq!(output.status.code(), Some(1));
    let text = String::from_utf8(output.stdout).unwrap();
    assert!(!text.contains("DIFFERENCE"), "{text}");
    let told = "\nNOT ENOUGH: rules of published mode were never reached\n";
    let (_, rules) = text.split_once(told).unwrap();
    assert!(rules.starts_with("  Parts in published mode: "), "{rules}");
    assert!(rules.lines().all(|rule| rule.starts_with("  ")), "{rules}");
}

/// Only `values` is wrong, so that what it prints alone fails the comparison.
#[test]
fn values_that_are_wrong() {
    for (name, wrong) in [
        ("values-object", "sed 's/:../:00/'"),
        ("values-none", "sed -n 's/^0//p'"),
        ("values-more", "sed '$p'"),
        ("values-lower", "tr A-F a-f"),
    ] {
        let folder = oracles(name);
        fs::write(
            folder.join("values"),
            format!("#!/bin/sh\n{ORACLE} values | {wrong}\n"),
        )
        .unwrap();
        let (passed, text) = compared(&folder);
        assert!(!passed, "{name}");
        assert!(text.contains("DIFFERENCE in values, seed "), "{text}");
        assert_eq!(text.matches("traces that differ: 0\n").count(), 3, "{text}");
    }
}

/// Only the mode is wrong, in one of the two that replay_states is run in.
#[test]
fn a_program_that_knows_one_mode() {
    for (name, byte, differs) in [
        ("mode-0", "\\000", "replay_states, published mode"),
        ("mode-1", "\\001", "replay_states"),
    ] {
        let folder = oracles(name);
        let ahead = format!("head -c 10; head -c 1 > /dev/null; printf '{byte}'; cat");
        fs::write(
            folder.join("replay_states"),
            format!("#!/bin/sh\n{{ {ahead}; }} | {ORACLE} state\n"),
        )
        .unwrap();
        let (passed, text) = compared(&folder);
        assert!(!passed, "{name}");
        let told = format!("DIFFERENCE in {differs}, seed ");
        assert!(text.contains(&told), "{text}");
        assert_eq!(text.matches("traces that differ: 0\n").count(), 3, "{text}");
    }
}
