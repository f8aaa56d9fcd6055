//! Drives a connection of the repository through a whole concise-DCF job, and gathers what it sends.

use oracle::{
    CommandId, CommandLayerHeader, Connection, NodeId, ObjectDictionary, PowerlinkError,
    ReceiveConnState, SdoCommand, Segmentation, SendConnState, SequenceLayerHeader,
};

/// What was sent for each entry, its parts joined; or the repository's own error. Every command is answered
/// at once by a matching acknowledgement.
pub fn sent_entries(dcf: &[u8]) -> Result<Vec<Vec<u8>>, PowerlinkError> {
    let parameters = ObjectDictionary::default();
    let mut connection = Connection::new(NodeId(1));
    connection.start_concise_dcf_job(dcf.to_vec(), 1, 0, &parameters)?;
    let mut entries = Vec::new();
    let mut server_number = 0;
    while let Some((sequence, command)) = connection.get_pending_request(0, &parameters) {
        gather(&mut entries, &command);
        let answer = acknowledgement(&sequence, server_number);
        connection.handle_response(&answer, &response(&command));
        server_number = (server_number + 1) % 64;
    }
    assert!(connection.is_closed(), "a job that sends no more is over");
    Ok(entries)
}

/// An Expedited or an Initiate starts an entry, and a later part continues the last one. The opening
/// is no part of any.
fn gather(entries: &mut Vec<Vec<u8>>, command: &SdoCommand) {
    if command.header.command_id == CommandId::Nil {
        return;
    }
    match command.header.segmentation {
        Segmentation::Expedited | Segmentation::Initiate => entries.push(command.payload.clone()),
        Segmentation::Segment | Segmentation::Complete => {
            let last = entries.last_mut().expect("a later part follows a first");
            last.extend_from_slice(&command.payload);
        }
    }
}

fn acknowledgement(sequence: &SequenceLayerHeader, server_number: u8) -> SequenceLayerHeader {
    let opening = sequence.send_con == SendConnState::Initialization;
    let (receive_con, send_con) = if opening {
        (
            ReceiveConnState::Initialization,
            SendConnState::Initialization,
        )
    } else {
        (
            ReceiveConnState::ConnectionValid,
            SendConnState::ConnectionValid,
        )
    };
    SequenceLayerHeader {
        receive_sequence_number: sequence.send_sequence_number,
        receive_con,
        send_sequence_number: server_number,
        send_con,
    }
}

fn response(command: &SdoCommand) -> SdoCommand {
    SdoCommand {
        header: CommandLayerHeader {
            is_response: true,
            segment_size: 0,
            ..command.header
        },
        data_size: None,
        payload: Vec::new(),
    }
}
