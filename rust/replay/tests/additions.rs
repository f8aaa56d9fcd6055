//! What the repository alone does where document 01 adds something: each addition of src/client.rs is
//! one that the repository lacks.

#![cfg(has_oracle)]

use oracle::{
    CommandId, CommandLayerHeader, NodeId, ObjectDictionary, PowerlinkError, ReceiveConnState,
    SdoClientManager, SdoCommand, Segmentation, SendConnState, SequenceLayerHeader,
};
use std::panic::{catch_unwind, AssertUnwindSafe};

const NODE: NodeId = NodeId(5);

fn absent() -> ObjectDictionary {
    ObjectDictionary::default()
}

fn reply(number: u8, segmentation: Segmentation, is_aborted: bool, payload: &[u8]) -> Reply {
    let sequence = SequenceLayerHeader {
        receive_sequence_number: number,
        receive_con: ReceiveConnState::Initialization,
        send_sequence_number: number,
        send_con: SendConnState::Initialization,
    };
    let command = SdoCommand {
        header: CommandLayerHeader {
            transaction_id: 0,
            is_response: true,
            is_aborted,
            segmentation,
            command_id: CommandId::Nil,
            segment_size: payload.len() as u16,
        },
        data_size: None,
        payload: payload.to_vec(),
    };
    (sequence, command)
}

type Reply = (SequenceLayerHeader, SdoCommand);

/// A manager with a read, and so many of its commands sent and answered by an Initiate.
fn reading(answered: u8) -> SdoClientManager {
    let mut manager = SdoClientManager::new();
    let started = manager.read_object_by_index(NODE, 0x2100, 1, 0, &absent());
    assert_eq!(started, Ok(()));
    for number in 0..answered {
        assert!(manager.get_pending_request(0, &absent()).is_some());
        let (sequence, command) = reply(number, Segmentation::Initiate, false, &[]);
        manager.handle_response(NODE, sequence, command);
    }
    assert!(manager.get_pending_request(0, &absent()).is_some());
    manager
}

fn holds_nothing(manager: &SdoClientManager) -> bool {
    format!("{manager:?}").contains("connections: {}")
}

#[test]
fn an_abort_mark_with_under_four_bytes_panics() {
    for length in 0..4 {
        let mut manager = reading(0);
        let (sequence, command) = reply(0, Segmentation::Expedited, true, &vec![0; length]);
        let call = || manager.handle_response(NODE, sequence, command);
        assert!(catch_unwind(AssertUnwindSafe(call)).is_err(), "{length}");
    }
    let mut manager = reading(0);
    let (sequence, command) = reply(0, Segmentation::Expedited, true, &[0; 4]);
    manager.handle_response(NODE, sequence, command);
    assert!(holds_nothing(&manager));
}

#[test]
fn a_ninth_node_starts() {
    let mut manager = SdoClientManager::new();
    for node in 0..9 {
        let started = manager.read_object_by_index(NodeId(node), 0, 0, 0, &absent());
        assert_eq!(started, Ok(()));
    }
}

#[test]
fn jobs_and_uploads_past_4096_bytes() {
    let mut manager = SdoClientManager::new();
    let write = manager.write_object_by_index(NODE, 0, 0, vec![0; 4_093], 0, &absent());
    assert_eq!(write, Ok(()));
    let dcf = manager.start_configuration_download(NodeId(6), vec![0; 4_097], 0, &absent());
    assert_eq!(dcf, Ok(()));
    let mut manager = reading(2);
    let (sequence, command) = reply(2, Segmentation::Complete, false, &[0; 4_097]);
    manager.handle_response(NODE, sequence, command);
    assert!(holds_nothing(&manager));
}

#[test]
fn a_deadline_past_64_bits_wraps_or_panics() {
    let mut manager = SdoClientManager::new();
    let start = || manager.read_object_by_index(NODE, 0, 0, u64::MAX, &absent());
    let started = catch_unwind(AssertUnwindSafe(start));
    let wrapped = manager.next_action_time(&absent()) == Some(14_999_999);
    assert!(started.is_err() || wrapped);
}

#[test]
fn busy_and_a_short_dcf_take_a_number_and_the_second_enters_a_node() {
    let mut manager = SdoClientManager::new();
    let short = manager.start_configuration_download(NODE, vec![0; 3], 0, &absent());
    assert!(matches!(short, Err(PowerlinkError::ValidationError(_))));
    assert!(format!("{manager:?}").contains("state: Idle"));
    for expected in [true, false] {
        let read = manager.read_object_by_index(NODE, 0, 0, 0, &absent());
        assert_eq!(read.is_ok(), expected);
    }
    assert!(format!("{manager:?}").ends_with("next_transaction_id: 3 }"));
}
