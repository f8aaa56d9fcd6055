//! The rules of replies, in the order of document 01's steps.

use super::Observer;
use crate::client::MOST_BYTES;
use crate::refusal::Refusal;
use crate::rules::Rule;
use crate::table::{Held, State};
use crate::watched::Step;
use oracle::{ReceiveConnState, SdoCommand, Segmentation, SendConnState, SequenceLayerHeader};

impl Observer {
    pub(super) fn reply(
        &mut self,
        node: u8,
        sequence: &SequenceLayerHeader,
        command: &SdoCommand,
        step: &Step,
    ) {
        if step.before.held.iter().any(|held| held.node != node) {
            self.reach(Rule::ReplyBesideOthers);
        }
        let Some(held) = step.before.get(node) else {
            return self.reach(Rule::ReplyNotHeld);
        };
        let Some(outstanding) = held.outstanding else {
            return self.reach(Rule::ReplyNothingOutstanding);
        };
        if sequence.receive_sequence_number != outstanding {
            return self.reach(Rule::ReplyOtherNumber);
        }
        if sequence.send_sequence_number == held.last {
            return self.duplicate(held, command);
        }
        if sequence.send_sequence_number != (held.last + 1) % 64 {
            return self.out_of_sequence(held, command);
        }
        if held.last == 63 && held.state != State::Opening {
            self.reach(Rule::LastRound);
        }
        if command.header.is_aborted {
            return self.aborted(held, command);
        }
        self.taken(held, sequence, command, step);
    }

    fn duplicate(&mut self, held: &Held, command: &SdoCommand) {
        if command.header.is_aborted {
            self.reach(Rule::DuplicateAborted);
        }
        let sent = held.offset >= held.total;
        self.reach(match held.state {
            State::DownloadInProgress if sent => Rule::DuplicateSent,
            _ => by_state(
                held,
                Rule::DuplicateOpening,
                Rule::DuplicatePart,
                Rule::DuplicateUploadInit,
                Rule::DuplicateUpload,
            ),
        });
    }

    fn out_of_sequence(&mut self, held: &Held, command: &SdoCommand) {
        if command.header.is_aborted {
            self.reach(Rule::SequenceAborted);
        }
        self.reach(by_state(
            held,
            Rule::SequenceOpening,
            Rule::SequenceDownload,
            Rule::SequenceUploadInit,
            Rule::SequenceUpload,
        ));
    }

    fn aborted(&mut self, held: &Held, command: &SdoCommand) {
        self.reach(by_state(
            held,
            Rule::AbortedOpening,
            Rule::AbortedDownload,
            Rule::AbortedUploadInit,
            Rule::AbortedUpload,
        ));
        self.reach(match command.payload.len() {
            0 => Rule::AbortedNoBytes,
            1..=3 => Rule::AbortedFewBytes,
            4 => Rule::AbortedCode,
            _ => Rule::AbortedMoreBytes,
        });
    }

    fn taken(
        &mut self,
        held: &Held,
        sequence: &SequenceLayerHeader,
        command: &SdoCommand,
        step: &Step,
    ) {
        let refused = matches!(step.outcome, Err(Refusal::NoRoom));
        let place = usize::from(held.node);
        if refused {
            self.refused[place] = held.outstanding;
        } else if self.refused[place].take() == held.outstanding {
            self.reach(Rule::UploadAfterRefusal);
        }
        match held.state {
            State::Opening => self.opened(sequence),
            State::DownloadInProgress => self.acknowledged(held, step.after.get(held.node)),
            State::UploadInit => self.upload_begins(command, refused),
            State::UploadInProgress => self.upload_goes_on(command, refused),
            State::Idle | State::Established | State::Closed => {}
        }
        match step.read.as_ref().map(|value| value.data.len()) {
            Some(0) => self.reach(Rule::UploadNothing),
            Some(MOST_BYTES) => self.reach(Rule::Upload4096),
            _ => {}
        }
    }

    fn opened(&mut self, sequence: &SequenceLayerHeader) {
        let receive = sequence.receive_con == ReceiveConnState::Initialization;
        let send = sequence.send_con == SendConnState::Initialization;
        self.reach(match (receive, send) {
            (true, true) => Rule::OpeningBoth,
            (true, false) => Rule::OpeningReceiveOnly,
            (false, true) => Rule::OpeningSendOnly,
            (false, false) => Rule::OpeningNeither,
        });
    }

    fn acknowledged(&mut self, held: &Held, after: Option<&Held>) {
        if held.offset < held.total {
            return self.reach(Rule::PartAcknowledged);
        }
        if after.is_none() {
            return self.reach(Rule::LastAcknowledged);
        }
        self.reach(Rule::NextLoaded);
        if held.transaction == u8::MAX {
            self.reach(Rule::LoadRoundAtReply);
        }
    }

    fn upload_begins(&mut self, command: &SdoCommand, refused: bool) {
        let empty = command.payload.is_empty();
        self.reach(match command.header.segmentation {
            Segmentation::Expedited if refused => Rule::NoRoomExpedited,
            Segmentation::Expedited => Rule::UploadExpedited,
            Segmentation::Initiate => Rule::UploadInitiate,
            Segmentation::Segment => Rule::UploadInitSegment,
            Segmentation::Complete => Rule::UploadInitComplete,
        });
        match command.header.segmentation {
            Segmentation::Expedited if empty => self.reach(Rule::UploadExpeditedEmpty),
            Segmentation::Initiate if !empty => self.reach(Rule::UploadInitiatePayload),
            _ => {}
        }
    }

    fn upload_goes_on(&mut self, command: &SdoCommand, refused: bool) {
        let empty = command.payload.is_empty();
        self.reach(match command.header.segmentation {
            Segmentation::Segment if refused => Rule::NoRoomSegment,
            Segmentation::Segment => Rule::UploadSegment,
            Segmentation::Complete if refused => Rule::NoRoomComplete,
            Segmentation::Complete => Rule::UploadComplete,
            Segmentation::Expedited => Rule::UploadExpeditedLate,
            Segmentation::Initiate => Rule::UploadInitiateLate,
        });
        match command.header.segmentation {
            Segmentation::Segment if empty => self.reach(Rule::UploadSegmentEmpty),
            Segmentation::Complete if empty => self.reach(Rule::UploadCompleteEmpty),
            _ => {}
        }
    }
}

/// One of four rules by the state of a connection with a command outstanding.
fn by_state(held: &Held, opening: Rule, download: Rule, upload_init: Rule, upload: Rule) -> Rule {
    match held.state {
        State::DownloadInProgress => download,
        State::UploadInit => upload_init,
        State::UploadInProgress => upload,
        State::Opening | State::Idle | State::Established | State::Closed => opening,
    }
}
