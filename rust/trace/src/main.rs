//! The program `trace`: its arguments, its standard streams and its exit status.

use record::{MOST_RECORDS, RECORD_BYTES};
use std::env;
use std::ffi::OsString;
use std::io;
use std::process::ExitCode;

const USAGE: &str = "\
usage: trace write < LINES > RECORDS
       trace read  < RECORDS > LINES

Turns readable lines into the replay's records of 32 bytes, and records into lines, one a record, so
that line n is the record that the replay numbers n. A line has one operation:

  write NODE OBJECT DATA        start a write, e.g. write 5 2100:01 0104
  read NODE OBJECT              start a read
  dcf NODE DATA                 start a concise DCF, its bytes given, or its count and entries:
  dcf NODE count N OBJECT=DATA ...
  ask                           what is to be sent next?
  tick                          has a deadline passed?
  reply NODE SEQUENCE FLAGS DATA
                                a reply from a node
  gather DATA                   data for the next write, dcf or reply, ahead of its own
  record DATA                   any 32 bytes, as they are
  short DATA                    1 to 31 bytes, as they are, in the last line

NODE is a number from 0 to 255. OBJECT is index and sub-index in hex, 4 and 2 digits. DATA is hex, two
digits a byte, with spaces between bytes where one likes, or nothing; what one record has no place
for goes into gather records ahead of it. Every line but the last two may end in `at` and a time in
microseconds (or in ms or s: at 15s); without it the last time given goes on, at first 0. Blank lines,
and what comes after #, are passed over.

SEQUENCE is `answers N number M STATES`: N is the number of the command that is answered, M the
reply's own, both 0 to 63. STATES is init (both Initialization), none (both NoConnection), or two of
them, on receive none, init, valid or error, on send none, init, valid or request, as in
valid/request; without it both are valid. Or it is `seq XX XX`, octets 0 and 1 in hex.

FLAGS is, in this order and each if wanted, a kind (expedited, initiate, segment or complete; without
it expedited), response, and abort, with its code of 8 hex digits, as in abort 05040000. An abort
with other data has the word data before them. Or it is `flags XX`, the octet in hex.

exit status: 0 done; 1 a line could not be taken: each is told, and nothing is written; 2 wrong
arguments or a failing stream
";

const NOT_TAKEN: u8 = 1;

fn main() -> ExitCode {
    let arguments: Vec<_> = env::args_os().skip(1).collect();
    let done = match arguments.as_slice() {
        [only] if only == "write" => write(),
        [only] if only == "read" => read(),
        [only] if only == "--help" => program::put(USAGE.as_bytes()),
        _ => return called_wrongly(&arguments),
    };
    program::status("trace", done)
}

fn called_wrongly(arguments: &[OsString]) -> ExitCode {
    let (expected, found) = match arguments {
        [first, second, ..] if first == "write" || first == "read" => {
            ("no more arguments, as the input is standard input", second)
        }
        [first, ..] => ("write, read or --help alone", first),
        [] => return program::called_wrongly("trace", "write, read or --help", None, USAGE),
    };
    program::called_wrongly("trace", expected, Some(found), USAGE)
}

fn write() -> io::Result<ExitCode> {
    match trace::write(&program::input()?) {
        Ok(records) => {
            let count = records.len().div_ceil(RECORD_BYTES);
            if count > MOST_RECORDS as usize {
                let more = format!("{count} records; the replay reads the first {MOST_RECORDS}");
                program::tell("trace", more);
            }
            program::put(&records)
        }
        Err(all_bad) => {
            for bad in all_bad {
                program::tell("trace", bad);
            }
            Ok(ExitCode::from(NOT_TAKEN))
        }
    }
}

fn read() -> io::Result<ExitCode> {
    program::put(trace::read(&program::input()?).as_bytes())
}
