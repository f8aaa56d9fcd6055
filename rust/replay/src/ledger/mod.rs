//! What the client keeps of each held node beside the repository's connection, written from document
//! 01: enough to say why a connection ended and what it delivered, and whether an upload fits.
//!
//! The repository closes a connection without a word, so the reason is found here, from the same
//! reply. Where the table is read, it is checked that the two agree on who is held, in which state,
//! with which command outstanding.

mod entry;

use crate::client::Sent;
use crate::refusal::Refusal;
use crate::table::{State, Table};
use entry::{Common, Entry};
use oracle::{SdoCommand, SequenceLayerHeader};
use replay_line::{End, Reason};

pub use entry::Work;

/// The held nodes, ascending.
#[derive(Debug, Default)]
pub struct Ledger(Vec<Entry>);

impl Ledger {
    pub fn len(&self) -> usize {
        self.0.len()
    }

    fn place(&self, node: u8) -> Result<usize, usize> {
        self.0.binary_search_by_key(&node, |entry| entry.node)
    }

    pub fn holds(&self, node: u8) -> bool {
        self.place(node).is_ok()
    }

    pub fn is_busy(&self, node: u8) -> bool {
        let place = self.place(node);
        place.is_ok_and(|place| self.0[place].state != State::Idle)
    }

    /// A start that the repository accepted.
    pub fn started(&mut self, node: u8, work: Work) {
        let entry = Entry::new(node, State::Opening, work);
        match self.place(node) {
            Ok(place) => self.0[place] = entry,
            Err(place) => self.0.insert(place, entry),
        }
    }

    /// A start that the repository refused; it enters a node that it did not hold.
    pub fn entered(&mut self, node: u8) {
        if let Err(place) = self.place(node) {
            let entry = Entry::new(node, State::Idle, Work::None);
            self.0.insert(place, entry);
        }
    }

    pub fn reply(
        &mut self,
        node: u8,
        sequence: &SequenceLayerHeader,
        command: &SdoCommand,
    ) -> Result<Option<End>, Refusal> {
        let Ok(place) = self.place(node) else {
            return Ok(None);
        };
        let reason = self.0[place].reply(sequence, command)?;
        Ok(reason.map(|reason| self.0.remove(place).end(reason)))
    }

    /// The ends of an ask that sent this: it came to every node up to the one that gave.
    pub fn asked(&mut self, sent: Option<&Sent>) -> Vec<End> {
        let mut ends = Vec::new();
        let giver = sent.map(|(node, ..)| node.0);
        self.0.retain(|entry| {
            let reached = giver.is_none_or(|giver| entry.node < giver);
            let reason = entry.asked_in_vain().filter(|_| reached);
            ends.extend(reason.map(|reason| entry.end(reason)));
            reason.is_none()
        });
        if let Some((node, sequence, command)) = sent {
            if let Ok(place) = self.place(node.0) {
                self.0[place].gave(sequence, command);
            }
        }
        ends
    }

    /// The ends of a tick that sent this: only an abort ends, and a repeat changes nothing here.
    pub fn ticked(&mut self, sent: Option<&Sent>) -> Vec<End> {
        let Some((node, _, command)) = sent else {
            return Vec::new();
        };
        match self.place(node.0) {
            Ok(place) if command.header.is_aborted => {
                vec![self.0.remove(place).end(Reason::Timeout)]
            }
            _ => Vec::new(),
        }
    }

    /// Says where the repository's table is not what is kept here.
    pub fn agrees(&self, table: &Table) -> Result<(), String> {
        let kept = self.0.iter().map(Common::kept);
        let shown = table.held.iter().map(Common::shown);
        if kept.clone().eq(shown.clone()) {
            return Ok(());
        }
        let kept: Vec<_> = kept.collect();
        let shown: Vec<_> = shown.collect();
        Err(format!(
            "document 01 has {kept:?}, the repository {shown:?}"
        ))
    }
}
