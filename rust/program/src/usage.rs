//! How a program is called whose first argument is a mode, as the two oracles are: its arguments as words, what
//! is told of wrong ones, and an exit status that says whether all is well.

use crate::tell;
use std::env;
use std::io::{self, ErrorKind, Write};
use std::process::ExitCode;
use std::str::FromStr;

/// A program's name, and the modes that it tells of.
pub struct Usage {
    pub program: &'static str,
    pub text: &'static str,
}

impl Usage {
    /// Hands the arguments to what answers whether all is well, but for the one that asks for help.
    pub fn run(&self, run: impl FnOnce(&[&str]) -> io::Result<bool>) -> ExitCode {
        let arguments: Vec<_> = env::args_os().skip(1).collect();
        let words: Vec<_> = arguments
            .iter()
            .map(|word| word.to_string_lossy())
            .collect();
        let words: Vec<&str> = words.iter().map(|word| word.as_ref()).collect();
        let done = match words[..] {
            ["--help"] => writeln!(io::stdout(), "{}", self.text).map(|()| true),
            _ => run(&words),
        };
        match done {
            Ok(true) => ExitCode::SUCCESS,
            Ok(false) => ExitCode::FAILURE,
            Err(error) => {
                // Whoever reads the output has seen enough of it; but what was cut is not well.
                if error.kind() != ErrorKind::BrokenPipe {
                    tell(self.program, error);
                }
                ExitCode::FAILURE
            }
        }
    }

    pub fn called_wrongly(&self, arguments: &[&str]) -> io::Error {
        let found = match arguments {
            [] => "nothing".into(),
            words => format!("'{}'", words.join(" ").escape_debug()),
        };
        self.error(&format!(
            "expected a mode with what it takes; found {found}"
        ))
    }

    pub fn number<T: FromStr>(&self, text: &str) -> io::Result<T> {
        text.parse()
            .map_err(|_| self.error(&format!("{text} is no number")))
    }

    /// What every mode comes to where the repository's files are not at hand.
    pub fn no_oracle(&self) -> io::Error {
        self.error(
            "not run: the repository's client was not found; OSTELUMIV_ORACLE names its folder",
        )
    }

    fn error(&self, told: &str) -> io::Error {
        io::Error::other(format!("{told}\n{}", self.text))
    }
}
