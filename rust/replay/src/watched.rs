//! The replay whose state is read after every record, from the repository's Debug text.

use crate::client::{Answer, Client, Outcome};
use crate::gather::{Gather, Turn};
use crate::head::{Head, Modes};
use crate::line;
use crate::mirror::Mirrors;
use crate::published::{self, PUBLISHED_LIMIT};
use crate::refusal::Refusal;
use crate::table::Table;
use record::{Record, RecordBytes, OPERATION};
use replay_line::Value;

/// A record, and everything around it.
pub struct Step {
    pub bytes: RecordBytes,
    pub turn: Turn,
    pub outcome: Outcome,
    /// What was gathered, before and after.
    pub gathered: [usize; 2],
    pub before: Table,
    pub after: Table,
    pub next: Option<u64>,
    /// What a read brought that this record ended Complete.
    pub read: Option<Value>,
}

pub struct Watched {
    client: Client,
    gather: Gather,
    mirrors: Mirrors,
    modes: Modes,
    table: Table,
    number: u32,
}

impl Watched {
    pub fn new(head: Head) -> Self {
        Self {
            client: Client::new(head.parameters),
            gather: Gather::default(),
            mirrors: Mirrors::new(head.parameters),
            modes: head.modes,
            table: Table::default(),
            number: 0,
        }
    }

    /// The repository's table as it is now.
    pub fn table(&self) -> &Table {
        &self.table
    }

    /// Takes a record and puts its two lines. An error says that the ledger, a mirror, or the parts of a
    /// transfer, and the repository do not agree.
    pub fn step(&mut self, bytes: &RecordBytes, out: &mut Vec<u8>) -> Result<Step, String> {
        let gathered = self.gather.len();
        let before = self.table.clone();
        let turn = self.gather.turn(Record::read(bytes));
        let mut read = None;
        let outcome = match &turn {
            Turn::Refused(refusal) => Err(*refusal),
            Turn::Gathered => Ok(Answer::default()),
            Turn::Call(call) => {
                let mut outcome = self.client.call(call.clone());
                // The library was called, so the table may be another.
                self.table = self.client.checked_table()?;
                if let Ok(answer) = &mut outcome {
                    read = self.mirrors.follow(call, answer, &self.table)?;
                    self.cut(answer)?;
                }
                outcome
            }
        };
        self.put(Some(bytes[OPERATION]), &outcome, read.as_ref(), out);
        Ok(Step {
            bytes: *bytes,
            turn,
            outcome,
            gathered: [gathered, self.gather.len()],
            before,
            after: self.table.clone(),
            next: self.client.next_action_time(),
            read,
        })
    }

    /// The command that was sent, as the mode has it.
    fn cut(&self, answer: &mut Answer) -> Result<(), String> {
        match &mut answer.sent {
            Some(sent) if self.modes.published => {
                published::cut_anew(sent, &self.table, PUBLISHED_LIMIT)
            }
            _ => Ok(()),
        }
    }

    /// The input ended inside a record.
    pub fn short(&mut self, out: &mut Vec<u8>) {
        self.put(None, &Err(Refusal::ShortRecord), None, out);
    }

    fn put(
        &mut self,
        operation: Option<u8>,
        outcome: &Outcome,
        read: Option<&Value>,
        out: &mut Vec<u8>,
    ) {
        self.number += 1;
        line::put_line(out, self.number, operation, outcome);
        line::put_state(out, self.client.next_action_time(), &self.table, read);
    }
}
