//! What the programs of the Rust side share: their standard streams, the exit status where one of these
//! fails or the arguments are wrong, a file that one writes, and a run of another program.

pub mod proved;
#[cfg(unix)]
pub mod stand_in;
pub mod usage;

use std::env;
use std::ffi::OsString;
use std::fmt::Display;
use std::fs;
use std::io::{self, ErrorKind, Read, Write};
use std::path::Path;
use std::process::{Command, ExitCode, Output, Stdio};
use std::thread;

/// Wrong arguments, or a failing stream.
const FAILED: u8 = 2;

/// What some editors put in front of a text: in UTF-8, and in the two kinds of UTF-16.
const UTF_8_MARK: &[u8] = b"\xEF\xBB\xBF";
const UTF_16_MARKS: [&[u8]; 2] = [b"\xFF\xFE", b"\xFE\xFF"];

/// A text without the mark in front of it; none where the mark says that it is in UTF-16, which nobody here reads.
pub fn text(bytes: &[u8]) -> Option<&[u8]> {
    let utf_16 = UTF_16_MARKS.iter().any(|mark| bytes.starts_with(mark));
    (!utf_16).then(|| bytes.strip_prefix(UTF_8_MARK).unwrap_or(bytes))
}

/// All of standard input.
pub fn input() -> io::Result<Vec<u8>> {
    let mut bytes = Vec::new();
    let read = io::stdin().lock().read_to_end(&mut bytes);
    read.map_err(of_input)?;
    Ok(bytes)
}

/// Writes all that the program has to say, which is well then.
pub fn put(bytes: &[u8]) -> io::Result<ExitCode> {
    let mut output = io::stdout().lock();
    let written = output.write_all(bytes).and_then(|()| output.flush());
    written.map_err(of_output)?;
    Ok(ExitCode::SUCCESS)
}

/// Writes a file to a folder that is there. An error names the file.
pub fn write_file(folder: &Path, name: &str, bytes: &[u8]) -> Result<(), String> {
    fs::write(folder.join(name), bytes).map_err(|error| format!("{name}: {error}"))
}

/// An error of standard input, told as such.
pub fn of_input(error: io::Error) -> io::Error {
    io::Error::new(error.kind(), format!("standard input: {error}"))
}

/// An error of standard output, told as such.
pub fn of_output(error: io::Error) -> io::Error {
    io::Error::new(error.kind(), format!("standard output: {error}"))
}

/// Tells on standard error what is wrong. Where nobody reads that, the exit status still says it.
pub fn tell(program: &str, wrong: impl Display) {
    let _ = writeln!(io::stderr(), "{program}: {wrong}");
}

/// The exit status after wrong arguments. The one that is wrong is told, if it is there, and how the program is called: the usage up
/// to its first blank line.
pub fn called_wrongly(
    program: &str,
    expected: &str,
    found: Option<&OsString>,
    usage: &str,
) -> ExitCode {
    let found = found.map_or("nothing".into(), |word| {
        format!("'{}'", word.to_string_lossy().escape_debug())
    });
    tell(program, format_args!("expected {expected}; found {found}"));
    let called = usage.split("\n\n").next().unwrap_or(usage);
    let _ = writeln!(io::stderr(), "{called}\n{program} --help tells more");
    ExitCode::from(FAILED)
}

/// The exit status of what was done.
pub fn status(program: &str, done: io::Result<ExitCode>) -> ExitCode {
    match done {
        Ok(status) => status,
        // Whoever reads the output has seen enough of it.
        Err(error) if error.kind() == ErrorKind::BrokenPipe => ExitCode::SUCCESS,
        Err(error) => {
            tell(program, error);
            ExitCode::from(FAILED)
        }
    }
}

/// A program that was built here. Where EMULATOR names one, it was built for another processor, and the emulator runs it.
pub fn built(path: &str) -> Command {
    match env::var_os("EMULATOR") {
        Some(emulator) if !emulator.is_empty() => {
            let mut command = Command::new(emulator);
            command.arg(path);
            command
        }
        _ => Command::new(path),
    }
}

/// Runs a program on an input, and answers all that it says.
pub fn run(command: &mut Command, input: &[u8]) -> io::Result<Output> {
    let mut child = command
        .stdin(Stdio::piped())
        .stdout(Stdio::piped())
        .spawn()?;
    let mut stdin = child.stdin.take().expect("its input is piped");
    thread::scope(|scope| {
        // A program that has read enough may close its input early.
        scope.spawn(move || stdin.write_all(input).ok());
        child.wait_with_output()
    })
}
