//! A trace as it grows: each record goes to the oracle at once, so that the next one can look at the
//! state and at what was sent.

use super::Run;
use crate::client::MOST_BYTES;
use crate::head::Head;
use crate::line;
use crate::observe::Observer;
use crate::parameters;
use crate::rules::Rule;
use crate::table::{Held, State, Table};
use crate::watched::Watched;
use record::{Operation, Record, RecordBytes, LENGTH, MOST_DATA, MOST_RECORDS, RESPONSE};
use rng::Rng;

/// The states of the sequence header, by their numbers.
pub const INITIALIZATION: u8 = 1;
pub const VALID: u8 = 2;

/// Segmentation, as it stands in the flags of a reply.
pub const EXPEDITED: u8 = 0;
pub const INITIATE: u8 = 0x40;
pub const SEGMENT: u8 = 0x80;
pub const COMPLETE: u8 = 0xC0;

/// A reply by its fields; numbers and states are below 64 and 4.
#[derive(Debug, Clone)]
pub struct Reply {
    pub node: u8,
    pub receive: u8,
    pub receive_state: u8,
    pub send: u8,
    pub send_state: u8,
    pub flags: u8,
    pub payload: Vec<u8>,
}

pub struct Stage {
    pub rng: Rng,
    /// The time of the next record.
    pub now: u64,
    /// Whether bytes that a record does not use are drawn, and gathers have drawn lengths.
    pub loose: bool,
    head: Head,
    watched: Watched,
    observer: Observer,
    records: Vec<u8>,
    lines: Vec<u8>,
    values: Vec<u8>,
    number: u32,
    error: Option<String>,
}

impl Stage {
    pub fn new(head: Head, rng: Rng) -> Self {
        Self {
            rng,
            now: 0,
            loose: false,
            head,
            watched: Watched::new(head),
            observer: Observer::new(&head),
            records: Vec::new(),
            lines: Vec::new(),
            values: Vec::new(),
            number: 0,
            error: None,
        }
    }

    pub fn records(&self) -> u32 {
        self.number
    }

    pub fn table(&self) -> &Table {
        self.watched.table()
    }

    pub fn held(&self, node: u8) -> Option<&Held> {
        self.table().get(node)
    }

    /// The microseconds from a time to the deadline that is set then.
    pub fn timeout(&self) -> u64 {
        parameters::timeout(&self.head.parameters)
    }

    /// A record as it is. Past the last that is read, bytes only stand in the trace.
    pub fn push(&mut self, bytes: RecordBytes) {
        self.records.extend_from_slice(&bytes);
        if self.error.is_some() {
            return;
        }
        if self.number == MOST_RECORDS {
            return self.observer.reach(Rule::Limit);
        }
        self.number += 1;
        match self.watched.step(&bytes, &mut self.lines) {
            Ok(step) => {
                self.observer.see(&step);
                if let Some(value) = &step.read {
                    line::put_value(&mut self.values, self.number, value);
                }
            }
            Err(error) => self.error = Some(format!("record {}: {error}", self.number)),
        }
    }

    fn record(&mut self, record: Record) {
        let mut bytes = record.bytes();
        if self.loose {
            self.fill_unused(&record, &mut bytes);
        }
        self.push(bytes);
    }

    /// Draws the bytes that the operation does not use, its length too where it takes no data.
    fn fill_unused(&mut self, record: &Record, bytes: &mut RecordBytes) {
        if !record.operation.takes_data() {
            bytes[LENGTH] = self.rng.below(MOST_DATA + 1) as u8;
        }
        for place in record.unused() {
            bytes[place] = self.rng.byte();
        }
    }

    /// Gathers bytes, sixteen a record.
    pub fn gather(&mut self, mut bytes: &[u8]) {
        while !bytes.is_empty() {
            let most = bytes.len().min(MOST_DATA);
            let length = if self.loose && self.rng.one_in(8) {
                1 + self.rng.below(most)
            } else {
                most
            };
            let (now, later) = bytes.split_at(length);
            self.record(Record::new(Operation::Gather, 0, 0, now));
            bytes = later;
        }
    }

    /// Gathers what a record cannot hold itself, and hands over the rest.
    fn gathered<'a>(&mut self, bytes: &'a [u8]) -> &'a [u8] {
        let whole = bytes.len().saturating_sub(1) / MOST_DATA * MOST_DATA;
        let (before, own) = bytes.split_at(whole.min(MOST_BYTES));
        self.gather(before);
        own
    }

    pub fn write(&mut self, node: u8, data: &[u8]) {
        let own = self.gathered(data);
        let (index, sub_index) = self.object();
        self.record(Record {
            index,
            sub_index,
            ..Record::new(Operation::Write, node, self.now, own)
        });
    }

    pub fn read(&mut self, node: u8) {
        let (index, sub_index) = self.object();
        self.record(Record {
            index,
            sub_index,
            ..Record::new(Operation::Read, node, self.now, &[])
        });
    }

    pub fn dcf(&mut self, node: u8, dcf: &[u8]) {
        let own = self.gathered(dcf);
        self.record(Record::new(Operation::Dcf, node, self.now, own));
    }

    /// An index and a sub-index; those of document 01's run, or drawn ones.
    fn object(&mut self) -> (u16, u8) {
        if self.loose {
            return (self.rng.next() as u16, self.rng.byte());
        }
        (0x2100, 1)
    }

    pub fn ask(&mut self) {
        self.record(Record::new(Operation::Ask, 0, self.now, &[]));
    }

    pub fn tick(&mut self) {
        self.record(Record::new(Operation::Tick, 0, self.now, &[]));
    }

    pub fn reply(&mut self, reply: &Reply) {
        let own = self.gathered(&reply.payload);
        let octets = [
            reply.receive << 2 | reply.receive_state,
            reply.send << 2 | reply.send_state,
        ];
        self.record(Record {
            index: u16::from_le_bytes(octets),
            flags: reply.flags,
            ..Record::new(Operation::Reply, reply.node, 0, own)
        });
    }

    /// The reply that a node's outstanding command waits for, with no payload.
    pub fn right(&self, node: u8) -> Option<Reply> {
        let held = self.held(node)?;
        let state = match held.state {
            State::Opening => INITIALIZATION,
            _ => VALID,
        };
        Some(Reply {
            node,
            receive: held.outstanding?,
            receive_state: state,
            send: (held.last + 1) % 64,
            send_state: state,
            flags: RESPONSE,
            payload: Vec::new(),
        })
    }

    /// Sends the right reply, changed as the caller likes. It says whether there was one to send.
    pub fn answer(&mut self, node: u8, change: impl FnOnce(&mut Reply)) -> bool {
        let Some(mut reply) = self.right(node) else {
            return false;
        };
        change(&mut reply);
        self.reply(&reply);
        true
    }

    /// The trace and what the oracle said to it. `rest` is the beginning of a record.
    pub fn finish(mut self, rest: &[u8]) -> Result<Run, String> {
        if let Some(error) = self.error {
            return Err(error);
        }
        self.records.extend_from_slice(rest);
        if self.records.is_empty() {
            self.observer.reach(Rule::Empty);
        }
        if !rest.is_empty() && self.number < MOST_RECORDS {
            self.observer.short(self.number + 1);
            self.watched.short(&mut self.lines);
        }
        Ok(Run {
            head: self.head,
            records: self.records,
            lines: self.lines,
            values: self.values,
            counts: self.observer.counts().clone(),
        })
    }
}
