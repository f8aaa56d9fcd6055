//! Reads, run a second time on the repository's connection alone.
//!
//! The manager drops a connection that a reply closes, and with it what was read. Its mirror gets the
//! same calls, and its Debug text shows the data after the end. As long as the connection is held,
//! the two must look the same.

use crate::client::{with_code, Answer, Call, Job};
use crate::debug_text;
use crate::table::{Held, Table};
use oracle::{Connection, NodeId, ObjectDictionary};
use replay_line::{Reason, Value};
use std::collections::BTreeMap;

pub struct Mirrors {
    parameters: ObjectDictionary,
    /// By node.
    reads: BTreeMap<u8, Mirror>,
}

struct Mirror {
    connection: Connection,
    index: u16,
    sub_index: u8,
}

impl Mirrors {
    pub fn new(parameters: ObjectDictionary) -> Self {
        let reads = BTreeMap::new();
        Self { parameters, reads }
    }

    /// Follows a call that was not refused. `table` is the manager's after it. It answers what a read
    /// brought that the call ended Complete; only a reply does so, and it ends one job at most.
    pub fn follow(
        &mut self,
        call: &Call,
        answer: &Answer,
        table: &Table,
    ) -> Result<Option<Value>, String> {
        match call {
            Call::Start { node, time, job } => self.start(*node, *time, job, table.transaction),
            Call::Reply {
                node,
                sequence,
                command,
            } => {
                if let Some(mirror) = self.reads.get_mut(node) {
                    let command = with_code(command.clone());
                    mirror.connection.handle_response(sequence, &command);
                }
            }
            Call::Tick { time } => self.walk(answer, |mirror, parameters| {
                mirror.tick(*time, parameters);
            }),
            Call::Ask { time } => self.walk(answer, |mirror, parameters| {
                mirror.get_pending_request(*time, parameters);
            }),
        }
        let mut read = None;
        for end in &answer.ends {
            if let Some(mirror) = self.reads.remove(&end.node) {
                if end.reason == Reason::Complete {
                    read = Some(mirror.value()?);
                }
            }
        }
        self.same(table)?;
        Ok(read)
    }

    fn start(&mut self, node: u8, time: u64, job: &Job, transaction: u8) {
        if let Job::Read { index, sub_index } = *job {
            let mut connection = Connection::new(NodeId(node));
            let parameters = &self.parameters;
            let started =
                connection.start_read_job(index, sub_index, transaction, time, parameters);
            started.expect("a new connection takes a job");
            let mirror = Mirror {
                connection,
                index,
                sub_index,
            };
            self.reads.insert(node, mirror);
        }
    }

    /// A walk comes to every node up to the one that gave a command.
    fn walk(&mut self, answer: &Answer, call: impl Fn(&mut Connection, &ObjectDictionary)) {
        let giver = answer.sent.as_ref().map_or(u8::MAX, |(node, ..)| node.0);
        for (_, mirror) in self.reads.range_mut(..=giver) {
            call(&mut mirror.connection, &self.parameters);
        }
    }

    fn same(&self, table: &Table) -> Result<(), String> {
        for (node, mirror) in &self.reads {
            let (held, shown) = (table.get(*node), mirror.shown()?);
            if held != Some(&shown) {
                return Err(format!("the mirror has {shown:?}, the manager {held:?}"));
            }
        }
        Ok(())
    }
}

impl Mirror {
    fn shown(&self) -> Result<Held, String> {
        debug_text::connection(&format!("{:?}", self.connection))
    }

    fn value(&self) -> Result<Value, String> {
        let shown = self.shown()?;
        Ok(Value {
            node: shown.node,
            index: self.index,
            sub_index: self.sub_index,
            data: shown.buffer,
        })
    }
}
