//! Which of document 01's rules a step reached: from the record, the repository's table before and
//! after it, and the answer. Nothing here decides an answer.

mod parts;
mod reply;
mod start;
mod walk;

use crate::client::{Answer, Call, MOST_BYTES, MOST_HELD};
use crate::counts::Counts;
use crate::gather::Turn;
use crate::head::{Head, Modes};
use crate::parameters;
use crate::refusal::Refusal;
use crate::rules::Rule;
use crate::table::{State, Table};
use crate::watched::Step;
use oracle::Segmentation;
use record::{Operation, Record, RecordBytes, DATA, OPERATION, SPARE};
use replay_line::{End, Reason};

/// The low four flag bits, which have no meaning.
const LOW_FLAGS: u8 = 0x0F;

pub struct Observer {
    counts: Counts,
    modes: Modes,
    /// The microseconds from a time to the deadline that is set then.
    timeout: u64,
    /// The nodes that had an end.
    ended: [bool; 256],
    /// By node, the send number of the command to which a reply was refused.
    refused: [Option<u8>; 256],
    /// By node, the kind of the part that went out last, as it was sent.
    last_part: [Option<Segmentation>; 256],
}

impl Observer {
    pub fn new(head: &Head) -> Self {
        let parameters = &head.parameters;
        let mut counts = Counts::default();
        counts.reach(match parameters.timeout {
            None => Rule::TimeoutAbsent,
            Some(0) => Rule::Timeout0,
            Some(1) => Rule::Timeout1,
            Some(..1_000_000) => Rule::TimeoutOther,
            Some(_) => Rule::TimeoutLarge,
        });
        counts.reach(match parameters.retries {
            None => Rule::RetriesAbsent,
            Some(0) => Rule::Retries0,
            Some(1) => Rule::Retries1,
            Some(2) => Rule::Retries2,
            Some(_) => Rule::RetriesLarge,
        });
        Self {
            counts,
            modes: head.modes,
            timeout: parameters::timeout(parameters),
            ended: [false; 256],
            refused: [None; 256],
            last_part: [None; 256],
        }
    }

    pub fn counts(&self) -> &Counts {
        &self.counts
    }

    pub fn reach(&mut self, rule: Rule) {
        self.counts.reach(rule);
    }

    /// The deadline that is set at a time, if it has 64 bits.
    fn deadline(&self, time: u64) -> Option<u64> {
        time.checked_add(self.timeout)
    }

    /// The input ended inside the record of this number.
    pub fn short(&mut self, number: u32) {
        self.reach(match number {
            1 => Rule::ShortFirst,
            _ => Rule::ShortLater,
        });
    }

    pub fn see(&mut self, step: &Step) {
        match Record::read(&step.bytes) {
            Some(record) => self.record(&record, step),
            None => self.bad(&step.bytes, step.gathered[0]),
        }
        if let Turn::Call(call) = &step.turn {
            self.call(call, step);
            self.table(step);
        }
        if let Ok(answer) = &step.outcome {
            self.ends(answer, &step.before);
        }
    }

    fn bad(&mut self, bytes: &RecordBytes, gathered: usize) {
        self.reach(match bytes[OPERATION] {
            0 => Rule::BadZero,
            1..=7 => Rule::BadLength,
            8.. => Rule::BadHigh,
        });
        if gathered > 0 {
            self.reach(Rule::GatherBad);
        }
    }

    fn record(&mut self, record: &Record, step: &Step) {
        let (operation, used) = match record.operation {
            Operation::Write => (Rule::Operation1, Some(Rule::GatherWrite)),
            Operation::Read => (Rule::Operation2, Some(Rule::GatherRead)),
            Operation::Dcf => (Rule::Operation3, Some(Rule::GatherDcf)),
            Operation::Reply => (Rule::Operation4, Some(Rule::GatherReply)),
            Operation::Tick => (Rule::Operation5, Some(Rule::GatherTick)),
            Operation::Ask => (Rule::Operation6, Some(Rule::GatherAsk)),
            Operation::Gather => (Rule::Operation7, None),
        };
        self.reach(operation);
        let [before, after] = step.gathered;
        if let Some(used) = used.filter(|_| before > 0) {
            self.reach(used);
            if after == 0 && step.outcome.is_err() {
                self.reach(Rule::GatherEmptied);
            }
        }
        if after == MOST_BYTES && before < after {
            self.reach(Rule::GatherFull);
        }
        if step.turn == Turn::Refused(Refusal::NoRoom) {
            self.reach(Rule::NoRoomGather);
            if before > 0 {
                self.reach(Rule::GatherRefused);
            }
        }
        if step.bytes[SPARE] != 0 {
            self.reach(Rule::Byte15);
        }
        let past = &step.bytes[DATA + record.data.len()..];
        if past.iter().any(|byte| *byte != 0) {
            self.reach(Rule::PastLength);
        }
        if record.operation == Operation::Reply && record.flags & LOW_FLAGS != 0 {
            self.reach(Rule::LowFlags);
        }
    }

    fn call(&mut self, call: &Call, step: &Step) {
        match call {
            Call::Start { node, time, job } => {
                if step.before.held.iter().any(|held| held.node != *node) {
                    self.reach(Rule::StartBesideOthers);
                }
                match &step.outcome {
                    Ok(_) => self.started(*node, *time, job, step),
                    Err(refusal) => self.refused_start(*node, *time, job, *refusal, step),
                }
            }
            Call::Reply {
                node,
                sequence,
                command,
            } => self.reply(*node, sequence, command, step),
            Call::Tick { time } => self.tick(*time, step),
            Call::Ask { time } => self.ask(*time, step),
        }
    }

    fn table(&mut self, step: &Step) {
        let held = &step.after.held;
        if held.len() == MOST_HELD {
            self.reach(Rule::EightHeld);
        }
        let first = held.iter().find_map(|held| held.deadline);
        match step.next {
            None if !held.is_empty() => self.reach(Rule::NextNone),
            Some(_) if step.next != first => self.reach(Rule::NextLeast),
            _ => {}
        }
    }

    fn ends(&mut self, answer: &Answer, before: &Table) {
        match answer.ends.len() {
            0 => return,
            1 => {}
            MOST_HELD => self.reach(Rule::EightEnds),
            _ => self.reach(Rule::TwoEnds),
        }
        // An abort both ends and is the command; here a command of another node is meant.
        let giver = answer.sent.as_ref().map(|(node, ..)| node.0);
        let other = giver.is_some_and(|giver| answer.ends.iter().all(|end| end.node != giver));
        if other {
            self.reach(Rule::EndsAndCommand);
        }
        for end in &answer.ends {
            self.end(end, before);
            self.ended[usize::from(end.node)] = true;
        }
    }

    fn end(&mut self, end: &End, before: &Table) {
        let some = end.delivered > 0;
        let held = before.get(end.node);
        let write =
            held.is_some_and(|held| held.state == State::DownloadInProgress && held.dcf.is_none());
        let read = held
            .is_some_and(|held| matches!(held.state, State::UploadInit | State::UploadInProgress));
        self.reach(match end.reason {
            Reason::Complete if write => Rule::EndWrite,
            Reason::Complete if read => Rule::EndRead,
            Reason::Complete if some => Rule::EndDcf,
            Reason::Complete => Rule::EndDcfEmpty,
            Reason::Cut if some => Rule::EndCut,
            Reason::Cut => Rule::EndCutEmpty,
            Reason::OpenRefused => Rule::EndOpenRefused,
            Reason::Sequence if some => Rule::EndSequenceSome,
            Reason::Sequence => Rule::EndSequence,
            Reason::PeerAborted if some => Rule::EndPeerAbortedSome,
            Reason::PeerAborted => Rule::EndPeerAborted,
            Reason::Timeout if some => Rule::EndTimeoutSome,
            Reason::Timeout => Rule::EndTimeout,
            Reason::BadSegment => Rule::EndBadSegment,
        });
    }
}
