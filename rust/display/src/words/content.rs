//! What a command's payload says: the object that is meant, and data, an abort's code or objects in words.

use super::Way;
use crate::row::object;
use ostelumiv::{
    CommandId, CommandLayerHeader, ReadByIndexRequest, ReadMultipleParamRequest, Refusal,
    SdoCommand, Segmentation, WriteAllByIndexRequest, WriteByIndexRequest,
};

/// How many bytes of data are shown; a row is for reading.
const MOST_DATA_SHOWN: usize = 32;

pub struct Content {
    /// Empty where the payload does not name one.
    pub object: String,
    pub words: Option<String>,
}

impl Content {
    pub fn of(way: Way, command: &SdoCommand) -> Result<Self, Refusal> {
        if command.header.is_aborted {
            return Ok(Self::words(Some(abort(command.payload))));
        }
        if starts_request(way, &command.header) {
            return Self::request(command.header.command_id, command.payload);
        }
        Ok(Self::words(data(command.payload)))
    }

    fn request(command: CommandId, payload: &[u8]) -> Result<Self, Refusal> {
        match command {
            CommandId::ReadByIndex => {
                let request = ReadByIndexRequest::from_payload(payload)?;
                let object = object(request.index, request.sub_index);
                let words = None;
                Ok(Self { object, words })
            }
            CommandId::WriteByIndex => {
                let request = WriteByIndexRequest::from_payload(payload)?;
                let object = object(request.index, request.sub_index);
                Ok(Self::write(object, request.data))
            }
            CommandId::WriteAllByIndex => {
                let request = WriteAllByIndexRequest::from_payload(payload)?;
                Ok(Self::write(format!("{:04X}", request.index), request.data))
            }
            CommandId::ReadMultipleParamByIndex => {
                let request = ReadMultipleParamRequest::from_payload(payload)?;
                Ok(Self::words(objects(request)))
            }
            _ => Ok(Self::words(data(payload))),
        }
    }

    fn words(words: Option<String>) -> Self {
        let object = String::new();
        Self { object, words }
    }

    /// A write may carry no data, and then says so.
    fn write(object: String, bytes: &[u8]) -> Self {
        let words = data(bytes).or(Some("no data".into()));
        Self { object, words }
    }
}

/// Only a request's first command says what it is for; its later parts and an answer carry data.
fn starts_request(way: Way, header: &CommandLayerHeader) -> bool {
    let starts = matches!(
        header.segmentation,
        Segmentation::Expedited | Segmentation::Initiate
    );
    let answers = header.is_response || matches!(way, Way::From(_));
    starts && !answers
}

fn objects(request: ReadMultipleParamRequest) -> Option<String> {
    let objects = request.entries().map(|at| object(at.index, at.sub_index));
    let objects: Vec<_> = objects.collect();
    (!objects.is_empty()).then(|| objects.join(" "))
}

fn abort(payload: &[u8]) -> String {
    match payload.first_chunk() {
        Some(code) => format!("code {:08X}", u32::from_le_bytes(*code)),
        None => "no code".into(),
    }
}

/// The data in hex, cut where they are long; none where there are none.
fn data(bytes: &[u8]) -> Option<String> {
    let (head, tail) = bytes.split_at(bytes.len().min(MOST_DATA_SHOWN));
    let shown = hex::text(head);
    match (head.len(), tail.len()) {
        (0, _) => None,
        (_, 0) => Some(format!("data {shown}")),
        (_, more) => Some(format!("data {shown} and {more} more")),
    }
}
