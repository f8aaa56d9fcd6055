//! One node's connection, whose type is private in the repository: the calls that the comparisons make, each
//! handed on.

use crate::sdo::client_connection::SdoClientConnection;
use crate::{NodeId, ObjectDictionary, PowerlinkError, SdoCommand, SequenceLayerHeader};

/// What a connection sends.
pub type Sent = (SequenceLayerHeader, SdoCommand);

#[derive(Debug)]
pub struct Connection(SdoClientConnection);

impl Connection {
    pub fn new(node: NodeId) -> Self {
        Self(SdoClientConnection::new(node))
    }

    pub fn is_closed(&self) -> bool {
        self.0.is_closed()
    }

    pub fn start_concise_dcf_job(
        &mut self,
        dcf: Vec<u8>,
        tid: u8,
        time: u64,
        od: &ObjectDictionary,
    ) -> Result<(), PowerlinkError> {
        self.0.start_concise_dcf_job(dcf, tid, time, od)
    }

    pub fn start_read_job(
        &mut self,
        index: u16,
        sub_index: u8,
        tid: u8,
        time: u64,
        od: &ObjectDictionary,
    ) -> Result<(), PowerlinkError> {
        self.0.start_read_job(index, sub_index, tid, time, od)
    }

    pub fn get_pending_request(&mut self, time: u64, od: &ObjectDictionary) -> Option<Sent> {
        self.0.get_pending_request(time, od)
    }

    pub fn tick(&mut self, time: u64, od: &ObjectDictionary) -> Option<Sent> {
        self.0.tick(time, od)
    }

    pub fn handle_response(&mut self, sequence: &SequenceLayerHeader, command: &SdoCommand) {
        self.0.handle_response(sequence, command);
    }
}
