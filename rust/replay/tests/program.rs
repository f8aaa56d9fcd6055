//! The program: its arguments, and streams that fail.

#![cfg(all(has_oracle, target_os = "linux"))]

use std::ffi::OsStr;
use std::fs::File;
use std::os::unix::ffi::OsStrExt;
use std::process::{Command, Stdio};

fn command(mode: impl AsRef<OsStr>) -> Command {
    let mut command = Command::new(env!("CARGO_BIN_EXE_replay_oracle"));
    command.arg(mode).stderr(Stdio::piped());
    command
}

#[test]
fn wrong_arguments() {
    for (mode, found) in [
        (&b"compares"[..], "compares"),
        (b"compare", "compare"),
        (b"\xFF", "\u{FFFD}"),
        (b"", ""),
    ] {
        let output = program::run(&mut command(OsStr::from_bytes(mode)), b"").unwrap();
        assert_eq!(output.status.code(), Some(1));
        assert!(output.stdout.is_empty());
        let told = String::from_utf8(output.stderr).unwrap();
        let wrong = "replay_oracle: expected a mode with what it takes; found";
        let start = format!("{wrong} '{found}'\nusage: replay_oracle MODE\n");
        assert!(told.starts_with(&start), "{told}");
    }
}

#[test]
fn help() {
    let output = program::run(&mut command("--help"), b"").unwrap();
    assert_eq!(output.status.code(), Some(0));
    assert!(output.stdout.starts_with(b"usage: replay_oracle MODE\n"));
    assert!(output.stderr.is_empty());
}

#[test]
fn a_head_that_is_cut() {
    let output = program::run(&mut command("state"), &[0; 10]).unwrap();
    assert_eq!(output.status.code(), Some(1));
    assert!(output.stdout.is_empty());
    let told = b"replay_oracle: the eleven bytes ahead of the records: ";
    assert!(output.stderr.starts_with(told));
}

#[test]
fn modes_that_there_are_not() {
    let told = "replay_oracle: the eleventh byte ahead of the records must be 0 or 1\n";
    for (modes, status, stderr) in [(0, 0, ""), (1, 0, ""), (2, 1, told), (0x81, 1, told)] {
        let mut input = [0; 11 + 32];
        input[10] = modes;
        let output = program::run(&mut command("state"), &input).unwrap();
        assert_eq!(output.status.code(), Some(status), "{modes}");
        assert_eq!(output.stdout.is_empty(), status == 1, "{modes}");
        assert_eq!(String::from_utf8(output.stderr).unwrap(), stderr);
    }
}

#[test]
fn drawn_traces() {
    let printed = |words: &[&str]| {
        let mut command = command("trace");
        let output = program::run(command.args(words), b"").unwrap();
        assert_eq!(output.status.code(), Some(0), "{words:?}");
        output.stdout
    };
    let [theirs, published] = [&["2"][..], &["2", "published"]].map(printed);
    assert_eq!([theirs[10], published[10]], [0, 1]);
    // Seed 2 has no theme of a mode's own, so both modes draw the same.
    assert_eq!(theirs[11..], published[11..]);
    let [theirs, published] = [&["longest"][..], &["longest", "published"]].map(printed);
    assert!(theirs[11..] != published[11..]);
}

#[test]
fn an_output_that_is_full() {
    for mode in ["cover", "compare"] {
        let full = File::options().write(true).open("/dev/full").unwrap();
        let output = command(mode).arg("100").stdout(full).output().unwrap();
        assert_eq!(output.status.code(), Some(1), "{mode}");
        assert!(output.stderr.starts_with(b"replay_oracle: No space left"));
    }
}
