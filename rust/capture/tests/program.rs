//! The program: its arguments and exit status.

use std::process::{Command, Output, Stdio};

fn run(arguments: &[&str], input: &[u8]) -> Output {
    let mut command = Command::new(env!("CARGO_BIN_EXE_capture"));
    command.args(arguments).stderr(Stdio::piped());
    program::run(&mut command, input).unwrap()
}

#[test]
fn a_file_or_nothing() {
    let output = run(&[], b"1 6 0 5 FC0100000001000000000000 -\r\n");
    assert_eq!(output.status.code(), Some(0));
    assert_eq!(output.stdout.len(), 24 + 16 + 60);
    assert!(output.stderr.is_empty());
    let output = run(&[], b"1 6 0 5 FC0100000001000000000000 -\n\xFF\n");
    assert_eq!(output.status.code(), Some(1));
    assert!(output.stdout.is_empty());
    let expected =
        "capture: line 2: expected six fields: record number, operation, refusal, node, \
                    bytes, ends\n";
    assert_eq!(String::from_utf8(output.stderr).unwrap(), expected);
}

#[test]
fn the_programs_arguments() {
    let help = run(&["--help"], b"");
    assert_eq!(help.status.code(), Some(0));
    assert!(help.stdout.starts_with(b"usage: capture"));
    let published = run(&["--published-flags"], b"1 6 0 5 0207000000018001 -\n");
    assert_eq!(published.status.code(), Some(0));
    assert_eq!(
        published.stdout[24 + 16 + 18..][..8],
        *b"\x02\x07\0\0\0\x01\x20\x01"
    );
    for arguments in [
        &["file"][..],
        &["--help", "file"],
        &["--published-flags", "file"],
    ] {
        let output = run(arguments, b"");
        assert_eq!(output.status.code(), Some(2));
        assert!(output.stdout.is_empty());
        let told = format!(
            "capture: expected no arguments, as the lines are standard input, or one of \
             --published-flags, --help; found '{}'\nusage: capture [--published-flags] < LINES > PCAP\n\
             capture --help tells more\n",
            arguments[0]
        );
        assert_eq!(String::from_utf8(output.stderr).unwrap(), told);
    }
}
