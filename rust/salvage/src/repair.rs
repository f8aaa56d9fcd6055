//! What must come out of a DCF, rebuilt from the entries that the repository's connection sends of it.
//!
//! From the repository: which entries are readable, each byte of them, and the refusal of a DCF under four
//! bytes. From here, written from the paper: the refusal of one over 4,096, and how entries stand in a DCF.

use concise_dcf::{count, sent_entries, COUNT_BYTES, ENTRY_HEAD, MOST_BYTES, SENT_HEAD};
use oracle::PowerlinkError;

#[derive(Debug, Clone, Copy, PartialEq, Eq)]
#[repr(u8)]
pub enum Refusal {
    TooShort = 5,
    TooLong = 7,
}

/// A repaired DCF, and the figures of its line that it does not say itself.
#[derive(Debug, Clone, PartialEq, Eq)]
pub struct Repaired {
    pub old_count: u32,
    pub new_count: u32,
    /// How many bytes of what was given are not in it.
    pub dropped: usize,
    pub bytes: Vec<u8>,
}

/// What must come out of one DCF.
#[derive(Debug, Clone, PartialEq, Eq)]
pub struct Answer(pub Result<Repaired, Refusal>);

impl Answer {
    /// The line, which ends in a newline.
    pub fn line(&self) -> String {
        match &self.0 {
            Err(refusal) => format!("{}\n", *refusal as u8),
            Ok(repaired) => repaired.line(),
        }
    }

    /// The bytes behind the line; a refused DCF has none.
    pub fn bytes(&self) -> &[u8] {
        match &self.0 {
            Err(_) => &[],
            Ok(repaired) => &repaired.bytes,
        }
    }

    /// All that salvages writes of the DCF.
    pub fn printed(&self) -> Vec<u8> {
        [self.line().as_bytes(), self.bytes()].concat()
    }
}

impl Repaired {
    fn line(&self) -> String {
        let offset = match self.dropped {
            0 => "-".into(),
            _ => self.bytes.len().to_string(),
        };
        let [old, new] = [self.old_count, self.new_count];
        format!("{old} {new} {} {offset}\n", self.dropped)
    }

    /// Whether the repository sends of the repaired DCF what it sent of the damaged one, and all that is
    /// counted.
    pub fn is_sent_like(&self, damaged: &[u8]) -> bool {
        let [again, before] = [&self.bytes, damaged].map(sent_entries);
        let sent = again.as_ref().map(Vec::len).ok();
        again == before && sent == count(&self.bytes).map(|count| count as usize)
    }
}

pub fn repair(dcf: &[u8]) -> Answer {
    if dcf.len() > MOST_BYTES {
        return Answer(Err(Refusal::TooLong));
    }
    let entries = match sent_entries(dcf) {
        Ok(entries) => entries,
        Err(PowerlinkError::ValidationError(_)) => return Answer(Err(Refusal::TooShort)),
        Err(other) => panic!("the repository refused a DCF with {other:?}"),
    };
    let bytes = rebuilt(&entries);
    Answer(Ok(Repaired {
        old_count: count(dcf).expect("the repository refuses a DCF without a count"),
        new_count: entries.len() as u32,
        dropped: dcf.len() - bytes.len(),
        bytes,
    }))
}

/// The DCF that holds the entries that were sent, and nothing else.
fn rebuilt(entries: &[Vec<u8>]) -> Vec<u8> {
    let sent: usize = entries.iter().map(Vec::len).sum();
    let mut dcf = Vec::with_capacity(COUNT_BYTES + entries.len() * (ENTRY_HEAD - SENT_HEAD) + sent);
    dcf.extend((entries.len() as u32).to_le_bytes());
    for entry in entries {
        let (head, data) = entry.split_at(SENT_HEAD);
        let [index_and_sub_index @ .., zero] = head else {
            unreachable!("the head has four bytes");
        };
        assert_eq!(*zero, 0, "the fourth byte that is sent is reserved");
        dcf.extend(index_and_sub_index);
        dcf.extend((data.len() as u32).to_le_bytes());
        dcf.extend(data);
    }
    dcf
}

#[cfg(test)]
mod tests {
    use super::repair;

    const DCF: [u8; 21] = [
        2, 0, 0, 0, 0x00, 0x21, 1, 2, 0, 0, 0, 0x01, 0x04, 0x01, 0x21, 0, 0, 0, 0, 0, 9,
    ];

    #[test]
    fn what_the_repository_sends_of_a_repaired_dcf() {
        let right = repair(&DCF).0.unwrap();
        assert!(right.is_sent_like(&DCF));
        for (place, byte) in [(0, 1), (0, 3), (12, 5), (13, 2)] {
            let mut wrong = right.clone();
            wrong.bytes[place] = byte;
            assert!(!wrong.is_sent_like(&DCF), "{place}");
        }
        let mut short = right.clone();
        short.bytes.pop();
        assert!(!short.is_sent_like(&DCF));
        short.bytes.clear();
        assert!(!short.is_sent_like(&DCF));
    }
}
