//! The program: its arguments, exit status and colours.

use std::process::{Output, Stdio};

fn run(arguments: &[&str], input: &[u8]) -> Output {
    let mut command = program::built(env!("CARGO_BIN_EXE_display"));
    command.args(arguments).env_remove("NO_COLOR");
    program::run(command.stderr(Stdio::piped()), input).unwrap()
}

/// The text that is shown where nothing is told on standard error.
fn shown(arguments: &[&str], input: &[u8], status: i32) -> String {
    let output = run(arguments, input);
    assert_eq!(output.status.code(), Some(status));
    assert!(output.stderr.is_empty());
    String::from_utf8(output.stdout).unwrap()
}

/// The abort of a timeout with its end, and another node's job that ended Complete: two red rows, one green.
const LINES: &[u8] = b"8 5 0 5 02080000000120000400000000000405 5:T:0\n9 6 0 - - 6:C:3\n";

#[test]
fn colours_where_they_are_asked_for() {
    let plain =
        "    8  tick    to     5  Nil           Abort                  4 bytes  transaction   1  \
                 send  2 none     receive  0 valid  code 05040000\n    \
                 8  tick    end    5  Timeout       0 delivered\n    \
                 9  ask     end    6  Complete      3 delivered\n";
    for arguments in [
        &["replay"][..],
        &["replay", "--color=auto"],
        &["--color=never", "replay"],
    ] {
        assert_eq!(shown(arguments, LINES, 0), plain);
    }
    let coloured = shown(&["replay", "--color=always"], LINES, 0);
    let starts: Vec<_> = coloured.lines().map(|line| &line[..5]).collect();
    assert_eq!(starts, ["\x1B[31m", "\x1B[31m", "\x1B[32m"]);
    assert!(coloured.lines().all(|line| line.ends_with("\x1B[0m")));
    let bare = coloured.replace("\x1B[31m", "").replace("\x1B[32m", "");
    assert_eq!(bare.replace("\x1B[0m", ""), plain);
}

#[test]
fn a_bad_line_is_told_the_rest_is_shown_and_the_status_is_1() {
    let text = shown(&[], b"5 > FC01\n5 > FC0100000001000000000000\n", 1);
    let mut rows = text.lines();
    assert_eq!(rows.next(), Some("line 1: refused 1 BufferTooShort"));
    assert!(rows.next().unwrap().starts_with("to     5  Nil  "));
    assert_eq!(rows.next(), None);
    let told =
        "line 1: expected six fields: record number, operation, refusal, node, bytes, ends\n";
    assert_eq!(shown(&["replay"], b"FC01\n", 1), told);
    let told = "line 1: expected four fields: record number, node, object, data\n    \
                5  from   3  2100:01     2 bytes  unsigned 1025, signed 1025\n";
    let lines = b"5 3 2100:01\n5 3 2100:01 0104\n";
    assert_eq!(shown(&["values"], lines, 1), told);
}

/// One entry and its count, and the rows of that.
const DCF: &[u8] = b"\x01\0\0\0\x00\x21\x01\x02\0\0\0\xED\x03";
const DCF_ROWS: [&str; 3] = [
    "count 1, 13 bytes",
    "    1  at     4  2100:01     2 bytes  unsigned 1005, signed 1005",
    "readable: 1 of 1 entry, 13 bytes; nothing is dropped",
];

#[test]
fn a_dcf_and_its_colours() {
    let text = shown(&["dcf"], DCF, 0);
    assert_eq!(text, DCF_ROWS.join("\n") + "\n");
    let [count, entry, end] = DCF_ROWS;
    let coloured = format!("{count}\n{entry}\n\x1B[32m{end}\x1B[0m\n");
    assert_eq!(shown(&["--color=always", "dcf"], DCF, 0), coloured);
}

/// A DCF that is cut is shown. One without a count is told, and so is an input that is too long, which is not read to its end.
#[test]
fn a_dcf_that_is_not_shown_has_the_status_1() {
    let cut = shown(&["dcf"], &DCF[..12], 0);
    assert!(cut.ends_with("; 8 bytes are dropped, from offset 4 on\n"));
    assert_eq!(shown(&["dcf"], &DCF[..3], 1), "refused 5 DcfTooShort\n");
    let told = "expected a DCF of at most 65536 bytes; found more\n";
    assert_eq!(shown(&["dcf"], &[0; 1_000_000], 1), told);
}

#[test]
fn the_programs_arguments() {
    let help = shown(&["--help"], b"", 0);
    assert!(help.starts_with("usage: display"));
    assert_eq!(shown(&["replay", "--help"], b"", 0), help);
    for (arguments, wrong) in [
        (&["frames"][..], "frames"),
        (&["--color"], "--color"),
        (&["--color=sometimes"], "--color=sometimes"),
        (&["replay", "file"], "file"),
        (&["value"], "value"),
        (&["dcf", "cut.dcf"], "cut.dcf"),
        (&["-h"], "-h"),
        (&[""], ""),
    ] {
        let output = run(arguments, b"");
        assert_eq!(output.status.code(), Some(2), "{arguments:?}");
        assert!(output.stdout.is_empty());
        let told = format!(
            "display: expected replay, values, dcf, --color=always, --color=never, --color=auto or \
             --help; found '{wrong}'\nusage: display [--color=WHEN] < FRAMES\n       \
             display replay [--color=WHEN] < LINES\n       \
             display values [--color=WHEN] < VALUES\n       \
             display dcf [--color=WHEN] < DCF\ndisplay --help tells more\n"
        );
        assert_eq!(String::from_utf8(output.stderr).unwrap(), told);
    }
}
