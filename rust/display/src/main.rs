//! The program `display`: its arguments, its standard streams and its exit status.

use display::{Notation, When};
use std::env;
use std::ffi::OsString;
use std::io::{self, IsTerminal};
use std::process::ExitCode;

const USAGE: &str = "\
usage: display [--color=WHEN] < FRAMES
       display replay [--color=WHEN] < LINES
       display values [--color=WHEN] < VALUES
       display dcf [--color=WHEN] < DCF

Shows a run in words, a row for each command: to or from which node, the command and its kind, object
(index and sub-index in hex), size, transaction, the sequence header's numbers and states, and what
is carried.

FRAMES has one frame a line, in hex: the sequence header, then the command. Spaces may stand between
bytes. Node and direction may stand ahead of it:

  5 > HEX        the client sends it to node 5
  5 < HEX        node 5 answers it

A frame may also be whole, as it is on the wire: from its Ethernet header on, whose type is 88AB, or from
its POWERLINK message on, which begins with 06, destination, source, 05. What is ahead of the sequence
header is passed over, but for the nodes: node 240 is the client's. Other messages of POWERLINK, and
frames of IP, cannot be shown. A row ends in 'reserved octets not 0' or 'N octets after it not shown'
where the bytes may be something else than one frame.

LINES are those that the replay prints. A row begins with the record's number and its operation. What
was sent, a refusal and each end have a row of their own; a gather that was taken has none.

VALUES are the lines that values prints. A row has the record's number, the node, the object, how many
bytes its read brought, and these: of 1, 2, 4 or 8 bytes as a number, low byte first, without and with a
sign; as a text where every byte is a printable character of ASCII; else all of them in hex.

DCF is a concise DCF, its bytes as they are and not in hex. Ahead is its count; then a row has an entry's
number, the offset where it begins, its object, how many bytes of data it has, and these as in a row of
VALUES. Behind the last entry that is readable, a row tells why the next one is not, or what stands there
that is not counted. The last row has what is readable, which a salvage keeps, and what it drops.

States are none (NoConnection), init (Initialization), valid (ConnectionValid), on send also request
(ConnectionValidAckRequest), and on receive error (ErrorResponse).

Blank lines and lines that start with # are passed over. A line that cannot be shown is told in its
place: its number, and the refusal's number and name, or what was expected. So is a DCF of under 4 bytes,
or of more than 65536, past which it is not read.

WHEN is always, never, or auto, which it is without the option: colours on a terminal, and none where
NO_COLOR is set.

exit status: 0 all shown, 1 a line or the DCF was not shown, 2 wrong arguments or a failing stream
";

const ARGUMENTS: &str =
    "replay, values, dcf, --color=always, --color=never, --color=auto or --help";

const NOT_SHOWN: u8 = 1;

enum Request {
    Help,
    Show(Input, When),
}

/// What standard input has.
enum Input {
    Lines(Notation),
    Dcf,
}

fn main() -> ExitCode {
    let done = match request(env::args_os().skip(1)) {
        Ok(Request::Help) => program::put(USAGE.as_bytes()),
        Ok(Request::Show(input, when)) => show(input, when),
        Err(wrong) => {
            return program::called_wrongly("display", ARGUMENTS, Some(&wrong), USAGE);
        }
    };
    program::status("display", done)
}

/// What the arguments ask for, or the first that is wrong.
fn request(arguments: impl Iterator<Item = OsString>) -> Result<Request, OsString> {
    let mut input = Input::Lines(Notation::Frames);
    let mut when = When::Auto;
    for argument in arguments {
        if argument == "--help" {
            return Ok(Request::Help);
        } else if argument == "replay" {
            input = Input::Lines(Notation::Replay);
        } else if argument == "values" {
            input = Input::Lines(Notation::Values);
        } else if argument == "dcf" {
            input = Input::Dcf;
        } else {
            when = colours(&argument).ok_or(argument)?;
        }
    }
    Ok(Request::Show(input, when))
}

fn colours(argument: &OsString) -> Option<When> {
    When::of_word(argument.to_str()?.strip_prefix("--color=")?)
}

fn show(input: Input, when: When) -> io::Result<ExitCode> {
    // Standard output passes on each row as it ends, so that a run can be watched.
    let mut output = io::stdout().lock();
    let none_wanted = env::var_os("NO_COLOR").is_some_and(|value| !value.is_empty());
    let coloured = when.coloured(output.is_terminal(), none_wanted);
    let mut stdin = io::stdin().lock();
    let all_shown = match input {
        Input::Lines(notation) => display::run(notation, coloured, &mut stdin, &mut output)?,
        Input::Dcf => display::run_dcf(coloured, &mut stdin, &mut output)?,
    };
    match all_shown {
        true => Ok(ExitCode::SUCCESS),
        false => Ok(ExitCode::from(NOT_SHOWN)),
    }
}
