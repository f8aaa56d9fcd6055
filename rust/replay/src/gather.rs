//! The replay's gather (document 01, "Replay"), and how a record becomes a call of the library.

use crate::client::{Call, Job, MOST_BYTES};
use crate::refusal::Refusal;
use oracle::{CommandId, CommandLayerHeader, SdoCommand, Segmentation, SequenceLayerHeader};
use record::{Operation, Record, ABORT, RESPONSE};

/// What a record comes to, before the library has its say.
#[derive(Debug, Clone, PartialEq)]
pub enum Turn {
    Refused(Refusal),
    Gathered,
    Call(Call),
}

#[derive(Debug, Default)]
pub struct Gather(Vec<u8>);

impl Gather {
    pub fn len(&self) -> usize {
        self.0.len()
    }

    /// Writes, DCFs and replies empty the gather whatever the library says to them.
    pub fn turn(&mut self, record: Option<Record>) -> Turn {
        let Some(record) = record else {
            return Turn::Refused(Refusal::BadRecord);
        };
        let (node, time) = (record.node, record.time);
        let (index, sub_index) = (record.index, record.sub_index);
        let start = |job| Call::Start { node, time, job };
        Turn::Call(match record.operation {
            Operation::Write => start(Job::Write {
                index,
                sub_index,
                data: self.emptied(record.data),
            }),
            Operation::Read => start(Job::Read { index, sub_index }),
            Operation::Dcf => start(Job::Dcf(self.emptied(record.data))),
            Operation::Reply => Call::Reply {
                node,
                sequence: sequence(index),
                command: command(record.flags, self.emptied(record.data)),
            },
            Operation::Tick => Call::Tick { time },
            Operation::Ask => Call::Ask { time },
            Operation::Gather => {
                if self.0.len() + record.data.len() > MOST_BYTES {
                    return Turn::Refused(Refusal::NoRoom);
                }
                self.0.extend_from_slice(record.data);
                return Turn::Gathered;
            }
        })
    }

    /// What was gathered and the record's own data; the gather is empty then.
    fn emptied(&mut self, data: &[u8]) -> Vec<u8> {
        let mut bytes = std::mem::take(&mut self.0);
        bytes.extend_from_slice(data);
        bytes
    }
}

/// The repository reads the octets of a reply.
fn sequence(octets: u16) -> SequenceLayerHeader {
    let [first, second] = octets.to_le_bytes();
    let header = SequenceLayerHeader::deserialize(&[first, second, 0, 0]);
    header.expect("two bits are one of four states")
}

fn command(flags: u8, payload: Vec<u8>) -> SdoCommand {
    SdoCommand {
        header: CommandLayerHeader {
            transaction_id: 0,
            is_response: flags & RESPONSE != 0,
            is_aborted: flags & ABORT != 0,
            segmentation: Segmentation::try_from(flags >> 6).expect("two bits are one of four"),
            command_id: CommandId::Nil,
            segment_size: payload.len() as u16,
        },
        data_size: None,
        payload,
    }
}
