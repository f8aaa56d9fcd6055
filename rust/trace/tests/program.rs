//! The program: its arguments, exit status and streams.

use std::fs::File;
use std::io::Write;
use std::process::{Command, Output, Stdio};

fn command(arguments: &[&str]) -> Command {
    let mut command = Command::new(env!("CARGO_BIN_EXE_trace"));
    command.args(arguments).stderr(Stdio::piped());
    command
}

fn run(arguments: &[&str], input: &[u8]) -> Output {
    program::run(&mut command(arguments), input).unwrap()
}

#[test]
fn nothing_is_written_for_a_bad_text() {
    let output = run(&["write"], b"ask\nask 5\nask\n");
    assert_eq!(output.status.code(), Some(1));
    assert!(output.stdout.is_empty());
    let told = String::from_utf8(output.stderr).unwrap();
    let expected = "trace: line 2, column 5: expected 'at' or the end of the line; found '5'\n";
    assert_eq!(told, expected);
}

#[test]
fn both_ways() {
    let output = run(&["write"], b"tick at 1s\nshort FF");
    assert_eq!(output.status.code(), Some(0));
    assert_eq!(output.stdout.len(), 33);
    assert!(output.stderr.is_empty());
    let output = run(&["read"], &output.stdout);
    assert_eq!(output.status.code(), Some(0));
    assert_eq!(output.stdout, b"tick at 1000000\nshort FF\n");
}

#[test]
fn more_records_than_the_replay_reads() {
    let output = run(&["write"], "ask\n".repeat(65_536).as_bytes());
    assert_eq!(output.status.code(), Some(0));
    assert_eq!(output.stdout.len(), 65_536 * 32);
    let told = String::from_utf8(output.stderr).unwrap();
    assert_eq!(
        told,
        "trace: 65536 records; the replay reads the first 65535\n"
    );
}

/// The exit status still says what became of the text.
#[test]
fn streams_that_nobody_reads() {
    for (text, status) in [(&b"ask\n"[..], 0), (b"ask 5\nask 6\n", 1)] {
        let mut child = command(&["write"])
            .stdin(Stdio::piped())
            .stdout(Stdio::piped())
            .spawn()
            .unwrap();
        drop((child.stdout.take(), child.stderr.take()));
        child.stdin.take().unwrap().write_all(text).unwrap();
        assert_eq!(child.wait().unwrap().code(), Some(status));
    }
}

#[test]
fn the_programs_arguments() {
    let help = run(&["--help"], b"");
    assert_eq!(help.status.code(), Some(0));
    assert!(help.stdout.starts_with(b"usage: trace write"));
    let more = "no more arguments, as the input is standard input; found";
    for (arguments, wrong) in [
        (&[][..], "write, read or --help; found nothing".into()),
        (
            &["wirte"],
            "write, read or --help alone; found 'wirte'".into(),
        ),
        (
            &["--help", "write"],
            "write, read or --help alone; found '--help'".into(),
        ),
        (&["write", "file"], format!("{more} 'file'")),
        (&["read", "write"], format!("{more} 'write'")),
    ] {
        let output = run(arguments, b"");
        assert_eq!(output.status.code(), Some(2));
        assert!(output.stdout.is_empty());
        let told = String::from_utf8(output.stderr).unwrap();
        let usage = "usage: trace write < LINES > RECORDS\n       trace read  < RECORDS > LINES\n\
                     trace --help tells more\n";
        assert_eq!(told, format!("trace: expected {wrong}\n{usage}"));
    }
}

/// A folder can be opened, and not read; a full disk takes nothing.
#[test]
fn streams_that_fail() {
    let mut unread = command(&["write"]);
    let folder = File::open("/").unwrap();
    let output = unread.stdin(folder).output().unwrap();
    assert_eq!(output.status.code(), Some(2));
    assert!(output.stderr.starts_with(b"trace: standard input: "));
    let mut unwritten = command(&["read"]);
    let full = File::options().write(true).open("/dev/full").unwrap();
    unwritten.stdin(Stdio::from(File::open("Cargo.toml").unwrap()));
    let output = unwritten.stdout(full).output().unwrap();
    assert_eq!(output.status.code(), Some(2));
    assert!(output.stderr.starts_with(b"trace: standard output: "));
}
