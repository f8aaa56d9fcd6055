//! A row of the picture: its text, and what it is at a glance.

#[derive(Debug, PartialEq, Eq)]
pub struct Row {
    pub tone: Tone,
    pub text: String,
}

#[derive(Debug, Clone, Copy, PartialEq, Eq)]
pub enum Tone {
    /// What the client sends, or a frame with no direction; of a DCF its count and its readable entries.
    Plain,
    /// What a node answers, and the value that came of it.
    Answer,
    /// A record of which nothing came.
    Quiet,
    /// A job that ended Complete, a DCF that is readable as a whole.
    Good,
    /// An abort, a refusal, a job that ended otherwise, a line that cannot be shown, a frame that may be none, what
    /// is wrong with a DCF.
    Trouble,
}

impl Row {
    /// Cells are padded for those to their right, so a row's last ones leave blanks that nobody needs.
    pub fn new(tone: Tone, text: String) -> Self {
        let text = text.trim_end().into();
        Self { tone, text }
    }
}

/// The first cell: what the row tells of, and the node.
pub fn head(word: &str, node: u8) -> String {
    format!("{word:<4} {node:>3}")
}

/// The first cell, as wide, where no node is known.
pub fn head_alone(word: &str) -> String {
    format!("{word:<8}")
}

/// Index and sub-index in hex.
pub fn object(index: u16, sub_index: u8) -> String {
    format!("{index:04X}:{sub_index:02X}")
}

pub fn size(bytes: usize) -> String {
    format!("{bytes:>4} {}", word(bytes, "byte", "bytes"))
}

/// A number in a sentence, and the words for one or for many.
pub fn counted(number: usize, one: &str, many: &str) -> String {
    format!("{number} {}", word(number, one, many))
}

fn word<'a>(number: usize, one: &'a str, many: &'a str) -> &'a str {
    if number == 1 {
        one
    } else {
        many
    }
}
