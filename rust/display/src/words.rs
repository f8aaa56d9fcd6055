//! A frame in words: whose it is, the command, its object and size, the sequence header, and what it
//! carries. Each cell is as wide as the values that the client sends or is sent, so that rows align.

mod content;
#[cfg(test)]
mod tests;

use crate::row::{head, head_alone, size, Row, Tone};
use crate::wrapped;
use content::Content;
use ostelumiv::{CommandId, Refusal, SdoCommand, SendConnState, SequenceLayerHeader};
use trace::{RECEIVE_STATES, SEND_STATES};

/// Where the command starts in a frame.
const COMMAND_START: usize = 4;

/// Which way a frame went: from the client to a node, from a node, or nobody said.
#[derive(Debug, Clone, Copy, PartialEq, Eq)]
pub enum Way {
    Unknown,
    To(u8),
    From(u8),
}

/// The row of a frame, or the refusal of the part of it that cannot be read.
pub fn frame(way: Way, frame: &[u8]) -> Result<Row, Refusal> {
    let sequence = SequenceLayerHeader::deserialize(frame)?;
    let command = SdoCommand::deserialize(&frame[COMMAND_START..])?;
    let content = Content::of(way, &command)?;
    let doubts = doubts(frame, &command);
    let trouble = command.header.is_aborted || !doubts.is_empty();
    let text = format!(
        "{}  {:<12}  {:<9}  {:<7}  {:<10}  transaction {:>3}  {}  {}",
        way_words(way),
        command.header.command_id.name(),
        kind(&sequence, &command),
        content.object,
        size(command.header.segment_size.into()),
        command.header.transaction_id,
        sequence_words(&sequence),
        carried(&command, content.words, doubts),
    );
    Ok(Row::new(tone(way, trouble), text))
}

fn way_words(way: Way) -> String {
    match way {
        Way::Unknown => head_alone("frame"),
        Way::To(node) => head("to", node),
        Way::From(node) => head("from", node),
    }
}

fn tone(way: Way, trouble: bool) -> Tone {
    match way {
        _ if trouble => Tone::Trouble,
        Way::From(_) => Tone::Answer,
        Way::To(_) | Way::Unknown => Tone::Plain,
    }
}

/// The segmentation, but for an abort and an opening, of which nobody looks at it.
fn kind(sequence: &SequenceLayerHeader, command: &SdoCommand) -> &'static str {
    let nil = command.header.command_id == CommandId::Nil;
    if command.header.is_aborted {
        "Abort"
    } else if nil && sequence.send_con == SendConnState::Initialization {
        "Opening"
    } else {
        command.header.segmentation.name()
    }
}

/// The states have the words that they have in a trace.
fn sequence_words(header: &SequenceLayerHeader) -> String {
    format!(
        "send {:>2} {:<7}  receive {:>2} {:<5}",
        header.send_sequence_number,
        SEND_STATES[usize::from(header.send_con.number())],
        header.receive_sequence_number,
        RECEIVE_STATES[usize::from(header.receive_con.number())],
    )
}

/// What only some commands have.
fn carried(command: &SdoCommand, content: Option<String>, doubts: Vec<String>) -> String {
    let response = command.header.is_response.then(|| "response".into());
    let data_size = command.data_size.map(|size| format!("data size {size}"));
    let mut words: Vec<String> = [response, data_size, content]
        .into_iter()
        .flatten()
        .collect();
    words.extend(doubts);
    words.join(", ")
}

/// What the codec passes over, and no frame has that keeps to the paper: these bytes may be something else, or two frames.
fn doubts(frame: &[u8], command: &SdoCommand) -> Vec<String> {
    let mut doubts = vec![];
    if wrapped::uses_reserved(frame) {
        doubts.push("reserved octets not 0".into());
    }
    let sizes = if command.data_size.is_some() { 12 } else { 8 };
    let after = &frame[COMMAND_START + sizes + command.payload.len()..];
    // Zeros fill up a short Ethernet frame.
    if after.iter().any(|&octet| octet != 0) {
        doubts.push(format!("{} octets after it not shown", after.len()));
    }
    doubts
}
