//! The ends that document 01 adds to the repository: which node, why, and how many transfers were
//! delivered.

#[derive(Debug, Clone, Copy, PartialEq, Eq)]
pub struct End {
    pub node: u8,
    pub reason: Reason,
    pub delivered: usize,
}

impl End {
    /// The end that `node:letter:delivered` says, if it says one.
    pub(crate) fn of_text(text: &str) -> Option<Self> {
        let parts: Vec<&str> = text.split(':').collect();
        let [node, letter, delivered] = parts[..] else {
            return None;
        };
        Some(Self {
            node: node.parse().ok()?,
            reason: Reason::of_letter(letter)?,
            delivered: delivered.parse().ok()?,
        })
    }
}

#[derive(Debug, Clone, Copy, PartialEq, Eq)]
pub enum Reason {
    Complete,
    Cut,
    OpenRefused,
    Sequence,
    PeerAborted,
    Timeout,
    BadSegment,
}

impl Reason {
    pub const ALL: [Self; 7] = [
        Self::Complete,
        Self::Cut,
        Self::OpenRefused,
        Self::Sequence,
        Self::PeerAborted,
        Self::Timeout,
        Self::BadSegment,
    ];

    /// The letter of a replay's line.
    pub fn letter(self) -> u8 {
        match self {
            Self::Complete => b'C',
            Self::Cut => b'X',
            Self::OpenRefused => b'O',
            Self::Sequence => b'S',
            Self::PeerAborted => b'P',
            Self::Timeout => b'T',
            Self::BadSegment => b'U',
        }
    }

    pub fn name(self) -> &'static str {
        match self {
            Self::Complete => "Complete",
            Self::Cut => "Cut",
            Self::OpenRefused => "OpenRefused",
            Self::Sequence => "Sequence",
            Self::PeerAborted => "PeerAborted",
            Self::Timeout => "Timeout",
            Self::BadSegment => "BadSegment",
        }
    }

    fn of_letter(letter: &str) -> Option<Self> {
        let mut all = Self::ALL.into_iter();
        all.find(|reason| letter.as_bytes() == [reason.letter()])
    }
}
