//! The program `capture`: its arguments, its standard streams and its exit status.

use capture::Flags;
use std::env;
use std::io;
use std::process::ExitCode;

const USAGE: &str = "\
usage: capture [--published-flags] < LINES > PCAP

Makes a capture file, as Wireshark and tshark read it, of what the client sent. Standard input has the
lines that the replay prints. Each that has bytes sent becomes a POWERLINK frame from node 240 to the
node of the line; its time in seconds is the line's record number. With --published-flags the flags of
each command are moved to the order of EPSG DS 301, as Wireshark reads them.

exit status: 0 done, 1 a line is none of the replay's: it is told, and nothing is written; 2 wrong
arguments or a failing stream
";

const NOT_TAKEN: u8 = 1;

fn main() -> ExitCode {
    let arguments: Vec<_> = env::args_os().skip(1).collect();
    let done = match arguments.as_slice() {
        [] => capture(Flags::AsSent),
        [only] if only == "--published-flags" => capture(Flags::Published),
        [only] if only == "--help" => program::put(USAGE.as_bytes()),
        [first, ..] => {
            let expected = "no arguments, as the lines are standard input, or one of --published-flags, --help";
            return program::called_wrongly("capture", expected, Some(first), USAGE);
        }
    };
    program::status("capture", done)
}

fn capture(flags: Flags) -> io::Result<ExitCode> {
    match capture::capture(&program::input()?, flags) {
        Ok(file) => program::put(&file),
        Err(bad) => {
            program::tell("capture", bad);
            Ok(ExitCode::from(NOT_TAKEN))
        }
    }
}
