//! The repository's manager, unchanged, with what document 01 adds around it.
//!
//! From the repository: every byte sent, refusals 4 and 5, states, numbers, deadlines, what is read.
//! From here, written from document 01: refusals 6, 7 and 8, which are decided before the repository
//! is called, so that nothing has to be undone; the ends, from the ledger; and an abort mark with
//! under four payload bytes, at which the repository would panic.

use crate::dcf::{self, SENT_HEAD};
use crate::debug_text;
use crate::ledger::{Ledger, Work};
use crate::parameters;
use crate::refusal::Refusal;
use crate::table::Table;
use oracle::{
    NodeId, ObjectDictionary, PowerlinkError, SdoClientManager, SdoCommand, SequenceLayerHeader,
};
use replay_line::End;
use std::fmt::Write;

/// The limits of document 01, which the repository does not have.
pub const MOST_HELD: usize = 8;
pub use concise_dcf::MOST_BYTES;

/// The bytes of an abort code.
const CODE_BYTES: usize = 4;

/// What a start asks for.
#[derive(Debug, Clone, PartialEq)]
pub enum Job {
    Write {
        index: u16,
        sub_index: u8,
        data: Vec<u8>,
    },
    Read {
        index: u16,
        sub_index: u8,
    },
    Dcf(Vec<u8>),
}

impl Job {
    /// The job bytes: the whole DCF, or a write's data and its head.
    pub fn bytes(&self) -> usize {
        match self {
            Self::Write { data, .. } => SENT_HEAD + data.len(),
            Self::Read { .. } => 0,
            Self::Dcf(dcf) => dcf.len(),
        }
    }

    pub fn is_short_dcf(&self) -> bool {
        matches!(self, Self::Dcf(dcf) if dcf::is_too_short(dcf))
    }
}

/// A call of the library.
#[derive(Debug, Clone, PartialEq)]
pub enum Call {
    Start {
        node: u8,
        time: u64,
        job: Job,
    },
    Reply {
        node: u8,
        sequence: SequenceLayerHeader,
        command: SdoCommand,
    },
    Tick {
        time: u64,
    },
    Ask {
        time: u64,
    },
}

/// A command, and the node that it goes to.
pub type Sent = (NodeId, SequenceLayerHeader, SdoCommand);

/// What a call that was not refused gave.
#[derive(Debug, Default)]
pub struct Answer {
    pub sent: Option<Sent>,
    pub ends: Vec<End>,
}

pub type Outcome = Result<Answer, Refusal>;

pub struct Client {
    manager: SdoClientManager,
    parameters: ObjectDictionary,
    ledger: Ledger,
    /// The Debug text, kept for its room.
    text: String,
}

impl Client {
    pub fn new(parameters: ObjectDictionary) -> Self {
        Self {
            manager: SdoClientManager::new(),
            parameters,
            ledger: Ledger::default(),
            text: String::new(),
        }
    }

    pub fn call(&mut self, call: Call) -> Outcome {
        match call {
            Call::Start { node, time, job } => self.start(node, time, job),
            Call::Reply {
                node,
                sequence,
                command,
            } => self.reply(node, sequence, command),
            Call::Tick { time } => self.tick(time),
            Call::Ask { time } => self.ask(time),
        }
    }

    fn start(&mut self, node: u8, time: u64, job: Job) -> Outcome {
        if !self.ledger.holds(node) && self.ledger.len() == MOST_HELD {
            return Err(Refusal::TableFull);
        }
        // 4 and 5 are the repository's own, and go ahead of 7 and 8.
        if !self.ledger.is_busy(node) && !job.is_short_dcf() {
            if job.bytes() > MOST_BYTES {
                return Err(Refusal::NoRoom);
            }
            if !self.fits(time) {
                return Err(Refusal::DeadlineRange);
            }
        }
        let work = Work::of(&job);
        if let Err(error) = self.hand_over(NodeId(node), time, job) {
            self.ledger.entered(node);
            return Err(theirs(error));
        }
        self.ledger.started(node, work);
        Ok(Answer::default())
    }

    fn hand_over(&mut self, node: NodeId, time: u64, job: Job) -> Result<(), PowerlinkError> {
        let parameters = &self.parameters;
        let manager = &mut self.manager;
        match job {
            Job::Write {
                index,
                sub_index,
                data,
            } => manager.write_object_by_index(node, index, sub_index, data, time, parameters),
            Job::Read { index, sub_index } => {
                manager.read_object_by_index(node, index, sub_index, time, parameters)
            }
            Job::Dcf(dcf) => manager.start_configuration_download(node, dcf, time, parameters),
        }
    }

    fn reply(&mut self, node: u8, sequence: SequenceLayerHeader, command: SdoCommand) -> Outcome {
        let end = self.ledger.reply(node, &sequence, &command)?;
        let command = with_code(command);
        self.manager
            .handle_response(NodeId(node), sequence, command);
        Ok(Answer {
            sent: None,
            ends: end.into_iter().collect(),
        })
    }

    fn tick(&mut self, time: u64) -> Outcome {
        if !self.fits(time) && self.table().tick_sets_deadline(time) {
            return Err(Refusal::DeadlineRange);
        }
        let sent = self.manager.tick(time, &self.parameters);
        let ends = self.ledger.ticked(sent.as_ref());
        Ok(Answer { sent, ends })
    }

    fn ask(&mut self, time: u64) -> Outcome {
        if !self.fits(time) && self.table().ask_sets_deadline() {
            return Err(Refusal::DeadlineRange);
        }
        let sent = self.manager.get_pending_request(time, &self.parameters);
        let ends = self.ledger.asked(sent.as_ref());
        Ok(Answer { sent, ends })
    }

    /// Whether a deadline that is set at this time has 64 bits.
    fn fits(&self, time: u64) -> bool {
        let timeout = parameters::timeout(&self.parameters);
        time.checked_add(timeout).is_some()
    }

    pub fn next_action_time(&self) -> Option<u64> {
        self.manager.next_action_time(&self.parameters)
    }

    /// The repository's table. Its text has every byte that is held, so this is for few records only.
    pub fn table(&mut self) -> Table {
        self.text.clear();
        write!(self.text, "{:?}", self.manager).expect("a string takes any text");
        debug_text::table(&self.text).unwrap_or_else(|error| panic!("{error}"))
    }

    /// The repository's table, where it is the one that document 01 has.
    pub fn checked_table(&mut self) -> Result<Table, String> {
        let table = self.table();
        self.ledger.agrees(&table)?;
        Ok(table)
    }
}

/// The command with room for an abort code where it has the mark: the repository takes the code's
/// bytes without looking, and does nothing with them but log them.
pub fn with_code(mut command: SdoCommand) -> SdoCommand {
    if command.header.is_aborted && command.payload.len() < CODE_BYTES {
        command.payload.resize(CODE_BYTES, 0);
    }
    command
}

/// The repository's refusals of a start by document 01's numbers.
fn theirs(error: PowerlinkError) -> Refusal {
    match error {
        PowerlinkError::SdoSequenceError(_) => Refusal::Busy,
        PowerlinkError::ValidationError(_) => Refusal::DcfTooShort,
        other => panic!("the repository refused a start with {other:?}"),
    }
}
