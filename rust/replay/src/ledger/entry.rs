//! One node of the ledger: its job, and document 01's steps of a reply.

use crate::client::{Job, MOST_BYTES};
use crate::dcf::{self, Readable, SENT_HEAD};
use crate::refusal::Refusal;
use crate::table::{Held, State};
use oracle::{ReceiveConnState, SdoCommand, Segmentation, SendConnState, SequenceLayerHeader};
use replay_line::{End, Reason};

/// What a job has to send or to bring.
#[derive(Debug, Clone)]
pub enum Work {
    /// None yet: the node was entered by a DCF that is too short.
    None,
    /// A write's one transfer, or the readable entries of a DCF.
    Send(Readable),
    Read,
}

impl Work {
    pub fn of(job: &Job) -> Self {
        match job {
            Job::Write { data, .. } => Self::Send(Readable {
                totals: vec![SENT_HEAD + data.len()],
                whole: true,
            }),
            Job::Read { .. } => Self::Read,
            Job::Dcf(dcf) => Self::Send(dcf::readable(dcf)),
        }
    }
}

#[derive(Debug)]
pub struct Entry {
    pub node: u8,
    pub state: State,
    work: Work,
    /// The send number of the command outstanding.
    outstanding: Option<u8>,
    last: u8,
    /// Transfers with a reply accepted after all their bytes were sent; the next one is loaded.
    delivered: usize,
    /// Bytes of the loaded transfer that were sent.
    sent: usize,
    uploaded: usize,
}

impl Entry {
    pub fn new(node: u8, state: State, work: Work) -> Self {
        Self {
            node,
            state,
            work,
            outstanding: None,
            last: 63,
            delivered: 0,
            sent: 0,
            uploaded: 0,
        }
    }

    /// The total of the transfer that is loaded.
    fn loaded(&self) -> Option<usize> {
        match &self.work {
            Work::Send(entries) => entries.totals.get(self.delivered).copied(),
            Work::None | Work::Read => None,
        }
    }

    pub fn end(&self, reason: Reason) -> End {
        End {
            node: self.node,
            reason,
            delivered: self.delivered,
        }
    }

    /// The reason of a job that has nothing more to send.
    fn done(&self) -> Reason {
        match &self.work {
            Work::Send(entries) if !entries.whole => Reason::Cut,
            _ => Reason::Complete,
        }
    }

    /// An ask that came to this connection and got no command.
    pub fn asked_in_vain(&self) -> Option<Reason> {
        let nothing = self.loaded().is_none() && !matches!(self.work, Work::Read);
        (self.state == State::Established && nothing).then(|| self.done())
    }

    /// An ask that got this command.
    pub fn gave(&mut self, sequence: &SequenceLayerHeader, command: &SdoCommand) {
        self.outstanding = Some(sequence.send_sequence_number);
        if self.state == State::Established {
            self.state = match self.work {
                Work::Read => State::UploadInit,
                _ => State::DownloadInProgress,
            };
        }
        if self.state == State::DownloadInProgress {
            self.sent += command.payload.len();
        }
    }

    /// A reply, step by step as document 01 has it. A refusal leaves everything as it was.
    pub fn reply(
        &mut self,
        sequence: &SequenceLayerHeader,
        command: &SdoCommand,
    ) -> Result<Option<Reason>, Refusal> {
        if self.outstanding != Some(sequence.receive_sequence_number) {
            return Ok(None);
        }
        let number = sequence.send_sequence_number;
        if number == self.last {
            self.outstanding = None;
            return Ok(None);
        }
        if number != (self.last + 1) % 64 {
            return Ok(Some(Reason::Sequence));
        }
        if command.header.is_aborted {
            return Ok(Some(Reason::PeerAborted));
        }
        let reason = match self.state {
            State::Opening => self.opened(sequence),
            State::DownloadInProgress => self.acknowledged(),
            State::UploadInit => self.upload_begins(command)?,
            State::UploadInProgress => self.upload_goes_on(command)?,
            // No command is outstanding in these.
            State::Idle | State::Established | State::Closed => None,
        };
        self.outstanding = None;
        self.last = number;
        Ok(reason)
    }

    fn opened(&mut self, sequence: &SequenceLayerHeader) -> Option<Reason> {
        let both = sequence.receive_con == ReceiveConnState::Initialization
            && sequence.send_con == SendConnState::Initialization;
        if !both {
            return Some(Reason::OpenRefused);
        }
        self.state = State::Established;
        None
    }

    fn acknowledged(&mut self) -> Option<Reason> {
        if self.loaded().is_some_and(|total| self.sent < total) {
            return None;
        }
        self.delivered += 1;
        self.sent = 0;
        if self.loaded().is_none() {
            return Some(self.done());
        }
        self.state = State::Established;
        None
    }

    fn upload_begins(&mut self, command: &SdoCommand) -> Result<Option<Reason>, Refusal> {
        match command.header.segmentation {
            Segmentation::Expedited => {
                self.brought(command.payload.len())?;
                Ok(Some(Reason::Complete))
            }
            Segmentation::Initiate => {
                self.state = State::UploadInProgress;
                Ok(None)
            }
            Segmentation::Segment | Segmentation::Complete => Ok(Some(Reason::BadSegment)),
        }
    }

    fn upload_goes_on(&mut self, command: &SdoCommand) -> Result<Option<Reason>, Refusal> {
        match command.header.segmentation {
            Segmentation::Segment => self.brought(command.payload.len()).map(|()| None),
            Segmentation::Complete => {
                self.brought(command.payload.len())?;
                Ok(Some(Reason::Complete))
            }
            Segmentation::Expedited | Segmentation::Initiate => Ok(Some(Reason::BadSegment)),
        }
    }

    fn brought(&mut self, length: usize) -> Result<(), Refusal> {
        if self.uploaded + length > MOST_BYTES {
            return Err(Refusal::NoRoom);
        }
        self.uploaded += length;
        Ok(())
    }
}

/// What both the ledger and the repository's table know of a connection.
#[derive(Debug, PartialEq)]
pub struct Common {
    node: u8,
    state: State,
    outstanding: Option<u8>,
    last: u8,
    sent: usize,
    uploaded: usize,
}

impl Common {
    pub fn kept(entry: &Entry) -> Self {
        Self {
            node: entry.node,
            state: entry.state,
            outstanding: entry.outstanding,
            last: entry.last,
            sent: entry.sent,
            uploaded: entry.uploaded,
        }
    }

    pub fn shown(held: &Held) -> Self {
        Self {
            node: held.node,
            state: held.state,
            outstanding: held.outstanding,
            last: held.last,
            sent: held.offset,
            uploaded: held.uploaded().len(),
        }
    }
}
