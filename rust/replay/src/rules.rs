//! Document 01's rules, one by one as a trace can reach them, and those that published mode has instead.

use crate::head::Modes;

/// A group, a rule of it, and its words.
pub type Row = (&'static str, Rule, &'static str);

/// Declares the rules once: their names, and the tables that are printed.
macro_rules! rules {
    (
        $($group:literal { $($rule:ident $text:literal)+ })+
        published $($other:literal { $($more:ident $words:literal)+ })+
    ) => {
        #[derive(Debug, Clone, Copy, PartialEq, Eq)]
        pub enum Rule { $($($rule,)+)+ $($($more,)+)+ }

        /// Document 01's.
        pub const RULES: &[Row] = &[$($(($group, Rule::$rule, $text),)+)+];
        /// Those that only a run in published mode reaches.
        pub const PUBLISHED: &[Row] = &[$($(($other, Rule::$more, $words),)+)+];
    };
}

/// Document 01's rules that no run in published mode may reach: there an Expedited has everything.
pub const NOT_PUBLISHED: [Rule; 2] = [Rule::PartExpeditedFirst, Rule::PartCompleteAfterExpedited];

/// The rules that runs in this mode are for.
pub fn rules_of(modes: Modes) -> &'static [Row] {
    match modes.published {
        false => RULES,
        true => PUBLISHED,
    }
}

/// Document 01's rules: those that a run in published mode may reach, and the others.
pub fn parted_by_published() -> (Vec<Row>, Vec<Row>) {
    let rules = RULES.iter();
    rules.partition(|(_, rule, _)| !NOT_PUBLISHED.contains(rule))
}

rules! {
    "The connection: start" {
        New "new: transaction 0, send 0, last received 63 (shown where 5 enters an Idle connection)"
        WriteOnNew "a write on a node not held sets Opening, the two numbers, deadline and retries"
        ReadOnNew "a read on a node not held"
        DcfOnNew "a DCF on a node not held"
        WriteOnIdle "a write on a held Idle connection"
        ReadOnIdle "a read on a held Idle connection"
        DcfOnIdle "a DCF on a held Idle connection"
        FirstLoaded "a DCF start loads the first entry"
        FirstNotCounted "a DCF start with count 0 loads nothing"
        FirstHeadCut "a DCF start whose first entry lacks some of its 7 bytes loads nothing"
        FirstDataCut "a DCF start whose first entry lacks some of its data loads nothing"
        LoadRoundAtStart "a load at the start takes the transaction from 255 to 1"
        LoadRoundAtReply "a load at a reply takes the transaction from 255 to 1"
    }
    "Job bytes" {
        WriteEmpty "a write of no data"
        Write4092 "a write of 4,092 data bytes starts"
        Dcf4096 "a DCF of 4,096 bytes starts"
        DcfWhole "a DCF that is whole, nothing after it"
        DcfTrailing "a DCF with bytes after its counted entries"
        DcfOverCounted "a DCF that counts more entries than it has, and ends after one"
        DcfHeadCut "a DCF that ends inside the 7 bytes of an entry"
        DcfDataCut "a DCF that ends inside the data of an entry"
        DcfHugeSize "a DCF with a size of 2^31 or more"
        DcfEmptyEntry "a DCF with an entry of no data"
    }
    "The connection: ask" {
        AskOutstanding "nothing if a command is outstanding"
        AskOpening "Opening: empty Nil command"
        AskOpeningAgain "Opening: empty Nil command again, after a duplicate number"
        AskFirstPart "Established: first part of a loaded transfer"
        AskRead "Established: the read command"
        AskEnds "Established, neither loaded nor to be read: Closed and ended"
        AskNextPart "DownloadInProgress: next part"
        AskEmptyPart "DownloadInProgress: an empty Complete if nothing remains"
        AskSegment "UploadInProgress: empty Segment ReadByIndex"
        AskIdle "other states: nothing (Idle)"
        AskStuck "other states: nothing (UploadInit after a duplicate number)"
        SendRound "the send number goes from 63 to 0"
    }
    "Parts" {
        PartExpedited "Expedited with everything"
        PartExpeditedFirst "Expedited with the first 1,452 of 1,453 to 1,456"
        PartInitiate "Initiate"
        PartSegment "Segment"
        PartCompleteAfterExpedited "Complete after an Expedited"
        PartComplete "Complete after an Initiate or a Segment"
        PartCompleteFull "Complete with 1,452 bytes"
        Total4 "total 4"
        Total1452 "total 1,452"
        Total1453 "total 1,453"
        Total1456 "total 1,456"
        Total1457 "total 1,457"
        Total2904 "total 2,904"
        Total2905 "total 2,905"
        Total4096 "total 4,096"
    }
    "The connection: reply" {
        ReplyNotHeld "node not held: ignored"
        ReplyNothingOutstanding "nothing outstanding: ignored"
        ReplyOtherNumber "receive number not that of the command outstanding: ignored"
        DuplicateOpening "send number equal to last received: stop there (Opening)"
        DuplicatePart "equal to last received (DownloadInProgress, bytes remain)"
        DuplicateSent "equal to last received (DownloadInProgress, everything sent)"
        DuplicateUploadInit "equal to last received (UploadInit)"
        DuplicateUpload "equal to last received (UploadInProgress)"
        DuplicateAborted "equal to last received, with the abort mark"
        SequenceOpening "send number not the successor: ended, Sequence (Opening)"
        SequenceDownload "not the successor (DownloadInProgress)"
        SequenceUploadInit "not the successor (UploadInit)"
        SequenceUpload "not the successor (UploadInProgress)"
        SequenceAborted "not the successor, with the abort mark"
        LastRound "last received comes round from 63 to 0"
        AbortedOpening "abort mark: ended, PeerAborted (Opening)"
        AbortedDownload "abort mark (DownloadInProgress)"
        AbortedUploadInit "abort mark (UploadInit)"
        AbortedUpload "abort mark (UploadInProgress)"
        AbortedNoBytes "abort mark, no payload: no code"
        AbortedFewBytes "abort mark, 1 to 3 payload bytes: no code"
        AbortedCode "abort mark, 4 payload bytes"
        AbortedMoreBytes "abort mark, more payload bytes"
        OpeningBoth "Opening: both states Initialization gives Established"
        OpeningReceiveOnly "Opening: only the receive state Initialization: OpenRefused"
        OpeningSendOnly "Opening: only the send state Initialization: OpenRefused"
        OpeningNeither "Opening: neither: OpenRefused"
        PartAcknowledged "DownloadInProgress, not everything sent: goes on"
        NextLoaded "DownloadInProgress, everything sent: loads the next entry, Established"
        LastAcknowledged "DownloadInProgress, everything sent, no entry left: ends"
        UploadExpedited "UploadInit: Expedited stores the payload and ends Complete"
        UploadExpeditedEmpty "UploadInit: Expedited with no payload"
        UploadInitiate "UploadInit: Initiate goes to UploadInProgress"
        UploadInitiatePayload "UploadInit: Initiate with a payload, which is dropped"
        UploadInitSegment "UploadInit: Segment: BadSegment"
        UploadInitComplete "UploadInit: Complete: BadSegment"
        UploadSegment "UploadInProgress: Segment appends"
        UploadSegmentEmpty "UploadInProgress: Segment with no payload"
        UploadComplete "UploadInProgress: Complete appends and ends"
        UploadCompleteEmpty "UploadInProgress: Complete with no payload"
        UploadExpeditedLate "UploadInProgress: Expedited: BadSegment"
        UploadInitiateLate "UploadInProgress: Initiate: BadSegment"
        UploadNothing "an upload of no bytes ends"
        Upload4096 "an upload of 4,096 bytes ends"
        UploadAfterRefusal "a reply is taken after a 7 undid one to the same command"
    }
    "The connection: tick" {
        TickNoDeadline "nothing without a deadline"
        TickBefore "nothing before it"
        TickJustBefore "nothing one microsecond before it"
        TickAt "exactly at it"
        TickAfter "after it"
        RepeatNothingSent "retries left, none was sent yet: one fewer, new deadline, nothing given"
        RepeatOpening "retries left: the command repeated (Opening)"
        RepeatDownload "repeated (DownloadInProgress)"
        RepeatUploadInit "repeated (UploadInit)"
        RepeatUpload "repeated (UploadInProgress)"
        TimeoutNothingSent "none left: the abort command, ended Timeout (none was sent yet)"
        TimeoutOpening "none left: abort (Opening)"
        TimeoutDownload "none left: abort (DownloadInProgress)"
        TimeoutUploadInit "none left: abort (UploadInit)"
        TimeoutUpload "none left: abort (UploadInProgress)"
    }
    "Ends" {
        EndWrite "C of a write, delivered 1"
        EndRead "C of a read, delivered 0"
        EndDcf "C of a DCF, delivered 1 or more"
        EndDcfEmpty "C of a DCF with count 0, delivered 0"
        EndCut "X, delivered 1 or more"
        EndCutEmpty "X, delivered 0"
        EndOpenRefused "O"
        EndSequence "S, delivered 0"
        EndSequenceSome "S, delivered 1 or more"
        EndPeerAborted "P, delivered 0"
        EndPeerAbortedSome "P, delivered 1 or more"
        EndTimeout "T, delivered 0"
        EndTimeoutSome "T, delivered 1 or more"
        EndBadSegment "U"
    }
    "The manager" {
        NumberTaken "each start takes the next transaction number"
        NumberRound "the transaction number goes from 255 to 1"
        BusyTakesNumber "4 takes a transaction number"
        ShortTakesNumber "5 takes a transaction number"
        AskPassesOver "ask passes over a connection that gives nothing"
        AskStops "ask stops at the first command, and a later connection had one too"
        TickPassesOver "tick passes over a connection that gives nothing"
        TickStops "tick stops at the first command, and a later connection was due too"
        TickGoesOn "tick changes a connection that sent nothing yet, and a later one gives a command"
        AskRefusedWhole "ask is refused with 8 though an earlier connection would have ended"
        AbortSetsNone "tick aborts at a time whose deadline would not fit"
        DeadlineFits "a deadline of exactly 2^64 - 1 is set"
        StartedAgain "a node that ended is started again"
        TwoEnds "one call reports two to seven ends, ascending"
        EightEnds "one call reports eight ends"
        EndsAndCommand "one call reports an end and gives a command"
        EightHeld "eight are held"
        StartBesideOthers "a start while others are held"
        ReplyBesideOthers "a reply while others are held"
        NextNone "next_action_time: none, though some are held"
        NextLeast "next_action_time: the least deadline, not the first node's"
    }
    "Refusals" {
        BusyWrite "4 to a write"
        BusyRead "4 to a read"
        BusyDcf "4 to a DCF"
        ShortNew "5 on a node not held"
        ShortIdle "5 on an Idle connection"
        FullWrite "6 to a write"
        FullRead "6 to a read"
        FullDcf "6 to a DCF"
        NoRoomWrite "7 to a write"
        NoRoomWrite4093 "7 to a write of 4,093 data bytes"
        NoRoomDcf "7 to a DCF"
        NoRoomExpedited "7 to a reply, Expedited"
        NoRoomSegment "7 to a reply, Segment"
        NoRoomComplete "7 to a reply, Complete"
        NoRoomGather "7 to a gather"
        DeadlineWrite "8 to a write"
        DeadlineRead "8 to a read"
        DeadlineDcf "8 to a DCF"
        DeadlineTick "8 to a tick"
        DeadlineAsk "8 to an ask"
        BadZero "10, operation 0"
        BadHigh "10, operation 8 to 255"
        BadLength "10, length over 16"
        ShortFirst "11, first record"
        ShortLater "11, later record"
        FullAheadOfShort "6 ahead of 5"
        FullAheadOfNoRoom "6 ahead of 7"
        FullAheadOfDeadline "6 ahead of 8"
        BusyAheadOfShort "4 ahead of 5"
        BusyAheadOfNoRoom "4 ahead of 7"
        BusyAheadOfDeadline "4 ahead of 8"
        ShortAheadOfDeadline "5 ahead of 8"
        NoRoomAheadOfDeadline "7 ahead of 8"
    }
    "Replay" {
        Operation1 "operation 1, write"
        Operation2 "operation 2, read"
        Operation3 "operation 3, DCF"
        Operation4 "operation 4, reply"
        Operation5 "operation 5, tick"
        Operation6 "operation 6, ask"
        Operation7 "operation 7, gather"
        Byte15 "byte 15 is unused"
        PastLength "data bytes past the length are not looked at"
        LowFlags "the low four flag bits of a reply are not looked at"
        GatherWrite "a write uses what was gathered"
        GatherDcf "a DCF uses what was gathered"
        GatherReply "a reply uses what was gathered"
        GatherEmptied "the gather is emptied though the library refused"
        GatherRead "a read leaves the gather"
        GatherTick "a tick leaves the gather"
        GatherAsk "an ask leaves the gather"
        GatherBad "a BadRecord leaves the gather"
        GatherRefused "a refused gather leaves what was gathered"
        GatherFull "4,096 bytes are gathered"
        Empty "empty input prints nothing"
        Limit "65,535 records are read, and bytes past them are not looked at"
    }
    "Parameters (traces)" {
        TimeoutAbsent "timeout absent"
        Timeout0 "timeout 0"
        Timeout1 "timeout 1"
        TimeoutOther "timeout 2 to 999,999"
        TimeoutLarge "timeout 1,000,000 and more"
        RetriesAbsent "retries absent"
        Retries0 "retries 0"
        Retries1 "retries 1"
        Retries2 "retries 2"
        RetriesLarge "retries 3 and more"
    }
    published "Parts in published mode" {
        PublishedWrite "Initiate with the first 1,452 of 1,453 to 1,456, of a write"
        PublishedEntry "Initiate with the first 1,452 of 1,453 to 1,456, of a DCF's entry"
        PublishedRepeated "Initiate with the first 1,452 of 1,453 to 1,456, repeated by a tick"
        PublishedComplete "Complete with the rest of 1,453 to 1,456, after its Initiate"
        PublishedCompleteRepeated "Complete with the rest of 1,453 to 1,456, repeated by a tick"
        PublishedEmpty "an empty Complete behind the Complete of 1,453 to 1,456, after a duplicate number"
        PublishedEmptyAfterExpedited "an empty Complete directly behind an Expedited, after a duplicate number"
        Published1452 "total 1,452: Expedited"
        Published1453 "total 1,453: Initiate, data size 1,449"
        Published1456 "total 1,456: Initiate, data size 1,452"
        Published1457 "total 1,457: Initiate, data size 1,453"
        Published2904 "total 2,904: Initiate, data size 2,900"
        Published2905 "total 2,905: Initiate, data size 2,901"
    }
}
