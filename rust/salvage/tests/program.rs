//! The program: its arguments, and what it writes of one DCF and of many.

#![cfg(all(has_oracle, target_os = "linux"))]

use std::fs::File;
use std::process::{Command, Output, Stdio};

const TOO_LONG: [u8; 4_097] = [0; 4_097];

fn command(arguments: &[&str]) -> Command {
    let mut command = Command::new(env!("CARGO_BIN_EXE_salvage_oracle"));
    command.args(arguments).stderr(Stdio::piped());
    command
}

fn run(arguments: &[&str], input: &[u8]) -> Output {
    program::run(&mut command(arguments), input).unwrap()
}

#[test]
fn wrong_arguments() {
    for (arguments, told) in [
        (
            &[][..],
            "expected a mode with what it takes; found nothing\n",
        ),
        (
            &["all"],
            "expected a mode with what it takes; found 'all'\n",
        ),
        (
            &["one", "2"],
            "expected a mode with what it takes; found 'one 2'\n",
        ),
        (&["compare", "x"], "x is no number\n"),
        (&["sample", "/nowhere"], "salvages/std"),
    ] {
        let output = run(arguments, b"");
        assert_eq!(output.status.code(), Some(1), "{arguments:?}");
        assert!(output.stdout.is_empty());
        let found = String::from_utf8(output.stderr).unwrap();
        assert!(
            found.starts_with(&format!("salvage_oracle: {told}")),
            "{found}"
        );
    }
}

#[test]
fn help() {
    let output = run(&["--help"], b"");
    assert_eq!(output.status.code(), Some(0));
    assert!(output.stdout.starts_with(b"usage: salvage_oracle MODE\n"));
    assert!(output.stderr.is_empty());
}

#[test]
fn one() {
    for (dcf, repaired, line) in [
        (&[2, 0, 0, 0, 9][..], &[0; 4][..], "2 0 1 4\n"),
        (&[2, 0, 0], &[], "5\n"),
        (&TOO_LONG, &[], "7\n"),
    ] {
        let output = run(&["one"], dcf);
        assert_eq!(output.status.code(), Some(0));
        assert_eq!(output.stdout, repaired);
        assert_eq!(output.stderr, line.as_bytes());
    }
}

#[test]
fn many() {
    let long = [&[0x01, 0x10][..], &TOO_LONG].concat();
    let input = [&[5, 0, 2, 0, 0, 0, 9, 0, 0][..], &long, &[4, 0, 0, 0, 0, 0]];
    let output = run(&["many"], &input.concat());
    assert_eq!(output.status.code(), Some(0));
    let expected = b"2 0 1 4\n\0\0\0\x005\n7\n0 0 0 -\n\0\0\0\0";
    assert_eq!(output.stdout, expected);
    assert!(output.stderr.is_empty());
}

#[test]
fn an_input_that_is_cut() {
    let output = run(&["many"], &[0, 0, 5, 0, 1]);
    assert_eq!(output.status.code(), Some(1));
    let told = b"salvage_oracle: the input ends inside DCF 2\n";
    assert_eq!(output.stderr, told);
}

#[test]
fn an_output_that_is_full() {
    for arguments in [&["--help"][..], &["compare", "1"]] {
        let full = File::options().write(true).open("/dev/full").unwrap();
        let mut command = command(arguments);
        // That salvages is not there would be told on standard output.
        command.env("OSTELUMIV_BIN", "/nowhere").stdout(full);
        let output = command.output().unwrap();
        assert_eq!(output.status.code(), Some(1), "{arguments:?}");
        let told = b"salvage_oracle: No space left";
        assert!(output.stderr.starts_with(told));
    }
}
