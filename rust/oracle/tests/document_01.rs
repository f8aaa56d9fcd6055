//! The oracle is the client that document 01 describes: its manager gives the bytes of that paper's
//! own run, and those of its abort at a timeout.

#![cfg(has_oracle)]

use oracle::{
    NodeId, ObjectDictionary, ReceiveConnState, SdoClientManager, SdoCommand, SendConnState,
    SequenceLayerHeader,
};

const NODE: NodeId = NodeId(5);

type Sent = Option<(NodeId, SequenceLayerHeader, SdoCommand)>;

/// Whom a frame goes to, and its bytes in hex.
fn frame(sent: Sent) -> Option<(u8, String)> {
    let (node, sequence, command) = sent?;
    let mut bytes = [0; 64];
    let head = sequence.serialize(&mut bytes).unwrap();
    let len = head + command.serialize(&mut bytes[head..]).unwrap();
    let hex = bytes[..len].iter().map(|byte| format!("{byte:02X}"));
    Some((node.0, hex.collect()))
}

/// A reply with the given sequence octets and an empty Nil command.
fn reply(manager: &mut SdoClientManager, octets: [u8; 2]) {
    let sequence = SequenceLayerHeader::deserialize(&[octets[0], octets[1], 0, 0]).unwrap();
    let command = SdoCommand::deserialize(&[0; 8]).unwrap();
    manager.handle_response(NODE, sequence, command);
}

#[test]
fn the_run() {
    let parameters = ObjectDictionary::default();
    let mut manager = SdoClientManager::new();
    let data = vec![0x01, 0x04];
    let started = manager.write_object_by_index(NODE, 0x2100, 1, data, 0, &parameters);
    assert_eq!(started, Ok(()));
    let opening = frame(manager.get_pending_request(0, &parameters));
    assert_eq!(opening, Some((5, "FC0100000001000000000000".into())));
    reply(&mut manager, [0x01, 0x01]);
    let write = frame(manager.get_pending_request(0, &parameters));
    let expected = "020700000001000106000000002101000104";
    assert_eq!(write, Some((5, expected.into())));
    assert_eq!(manager.next_action_time(&parameters), Some(15_000_000));
    reply(&mut manager, [0x06, 0x06]);
    assert_eq!(manager.next_action_time(&parameters), None);
    assert!(manager.get_pending_request(0, &parameters).is_none());
}

#[test]
fn the_abort_at_a_timeout() {
    let parameters = ObjectDictionary {
        timeout: Some(3),
        retries: Some(0),
    };
    let mut manager = SdoClientManager::new();
    let started = manager.read_object_by_index(NODE, 0x2100, 1, 0, &parameters);
    assert_eq!(started, Ok(()));
    assert!(manager.tick(2_999, &parameters).is_none());
    let abort = manager.tick(3_000, &parameters).unwrap();
    assert_eq!(abort.1.receive_con, ReceiveConnState::ConnectionValid);
    assert_eq!(abort.1.send_con, SendConnState::NoConnection);
    let expected = "FE000000000120000400000000000405";
    assert_eq!(frame(Some(abort)), Some((5, expected.into())));
}
