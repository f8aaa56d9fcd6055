//! The words of a line one after the other, and what is wrong with one of them.

use std::fmt;

const COMMENT: u8 = b'#';
/// How much of a wrong word is told; it may be a whole DCF.
const MOST_TOLD: usize = 24;

/// What was expected at a column of a line, and what stands there.
#[derive(Debug, PartialEq, Eq)]
pub struct Fault {
    pub column: usize,
    pub expected: String,
    pub found: String,
}

impl Fault {
    pub fn new(column: usize, expected: &str, found: impl Into<String>) -> Self {
        Self {
            column,
            expected: expected.into(),
            found: found.into(),
        }
    }
}

impl fmt::Display for Fault {
    fn fmt(&self, f: &mut fmt::Formatter<'_>) -> fmt::Result {
        let Self {
            column,
            expected,
            found,
        } = self;
        write!(f, "column {column}: expected {expected}; found {found}")
    }
}

/// A line without its comment, from the word that is next. Words are told apart by white space.
#[derive(Clone)]
pub struct Words<'a> {
    rest: &'a [u8],
    column: usize,
}

impl<'a> Words<'a> {
    pub fn of(line: &'a [u8]) -> Self {
        let comment = line.iter().position(|&byte| byte == COMMENT);
        let mut words = Self {
            rest: &line[..comment.unwrap_or(line.len())],
            column: 1,
        };
        words.skip_space();
        words
    }

    /// The next word, empty at the end of the line.
    pub fn word(&self) -> &'a [u8] {
        let end = self.rest.iter().position(u8::is_ascii_whitespace);
        &self.rest[..end.unwrap_or(self.rest.len())]
    }

    pub fn at_end(&self) -> bool {
        self.rest.is_empty()
    }

    pub fn is(&self, word: &str) -> bool {
        self.word() == word.as_bytes()
    }

    /// Goes past the next word.
    pub fn advance(&mut self) {
        self.drop(self.word().len());
        self.skip_space();
    }

    /// Goes past the next word if it is this one, and answers whether it was.
    pub fn take(&mut self, word: &str) -> bool {
        let taken = self.is(word);
        if taken {
            self.advance();
        }
        taken
    }

    /// Goes past the next word if it says something, and answers what.
    pub fn take_as<T>(&mut self, says: impl Fn(&str) -> Option<T>) -> Option<T> {
        let said = says(std::str::from_utf8(self.word()).ok()?)?;
        self.advance();
        Some(said)
    }

    /// What the next word says; it must say something.
    pub fn expect<T>(
        &mut self,
        expected: &str,
        says: impl Fn(&str) -> Option<T>,
    ) -> Result<T, Fault> {
        let said = self.take_as(says);
        said.ok_or_else(|| self.fault(expected))
    }

    /// The next word is not what was expected.
    pub fn fault(&self, expected: &str) -> Fault {
        let found = match self.word() {
            [] => "the end of the line".into(),
            word => quoted(word),
        };
        self.fault_found(expected, found)
    }

    /// The same, where something else than the next word is to be told.
    pub fn fault_found(&self, expected: &str, found: String) -> Fault {
        Fault::new(self.column, expected, found)
    }

    /// A place within the next word, or its end, is not what was expected.
    pub fn fault_within(&self, place: usize, expected: &str) -> Fault {
        let word = String::from_utf8_lossy(&self.word()[place..]);
        let found = match word.chars().next() {
            Some(character) => quoted(character.to_string().as_bytes()),
            None => "the end of the word".into(),
        };
        Fault::new(self.column + place, expected, found)
    }

    fn skip_space(&mut self) {
        let space = self
            .rest
            .iter()
            .take_while(|byte| byte.is_ascii_whitespace());
        self.drop(space.count());
    }

    fn drop(&mut self, count: usize) {
        self.rest = &self.rest[count..];
        self.column += count;
    }
}

fn quoted(word: &[u8]) -> String {
    let text = String::from_utf8_lossy(word);
    let told: String = text.chars().take(MOST_TOLD).collect();
    let more = if told.len() < text.len() { "..." } else { "" };
    format!("'{}{more}'", told.escape_debug())
}
