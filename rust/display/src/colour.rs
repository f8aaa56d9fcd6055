//! Colours: when they are wanted, and a row in its own.

use crate::row::{Row, Tone};
use std::io::{self, Write};

#[derive(Debug, Clone, Copy, PartialEq, Eq)]
pub enum When {
    /// On a terminal, unless the user wants none anywhere.
    Auto,
    Always,
    Never,
}

impl When {
    pub fn of_word(word: &str) -> Option<Self> {
        match word {
            "auto" => Some(Self::Auto),
            "always" => Some(Self::Always),
            "never" => Some(Self::Never),
            _ => None,
        }
    }

    pub fn coloured(self, on_terminal: bool, none_wanted: bool) -> bool {
        match self {
            Self::Auto => on_terminal && !none_wanted,
            Self::Always => true,
            Self::Never => false,
        }
    }
}

/// Terminals' own numbers, so that the user's palette holds.
fn number(tone: Tone) -> Option<u8> {
    match tone {
        Tone::Plain => None,
        Tone::Quiet => Some(2),
        Tone::Trouble => Some(31),
        Tone::Good => Some(32),
        Tone::Answer => Some(36),
    }
}

/// Writes a row as a line.
pub fn put(output: &mut impl Write, row: &Row, coloured: bool) -> io::Result<()> {
    match number(row.tone) {
        Some(number) if coloured => writeln!(output, "\x1B[{number}m{}\x1B[0m", row.text),
        _ => writeln!(output, "{}", row.text),
    }
}

#[cfg(test)]
mod tests {
    use super::{put, When};
    use crate::row::{Row, Tone};

    #[test]
    fn only_on_a_terminal_that_may_have_them() {
        for (on_terminal, none_wanted, coloured) in [
            (false, false, false),
            (false, true, false),
            (true, false, true),
            (true, true, false),
        ] {
            assert_eq!(When::Auto.coloured(on_terminal, none_wanted), coloured);
            assert!(When::Always.coloured(on_terminal, none_wanted));
            assert!(!When::Never.coloured(on_terminal, none_wanted));
        }
    }

    #[test]
    fn each_tone() {
        for (tone, text) in [
            (Tone::Plain, "row\n"),
            (Tone::Quiet, "\x1B[2mrow\x1B[0m\n"),
            (Tone::Trouble, "\x1B[31mrow\x1B[0m\n"),
            (Tone::Good, "\x1B[32mrow\x1B[0m\n"),
            (Tone::Answer, "\x1B[36mrow\x1B[0m\n"),
        ] {
            let row = Row::new(tone, "row".into());
            for (coloured, expected) in [(true, text), (false, "row\n")] {
                let mut output = Vec::new();
                put(&mut output, &row, coloured).unwrap();
                assert_eq!(output, expected.as_bytes());
            }
        }
    }
}
