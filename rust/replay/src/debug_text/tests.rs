//! The parser on texts of the repository itself, and on texts that were damaged.

use super::{connection, table};
use crate::table::{DcfLeft, Held, State, Table};
use oracle::{Connection, NodeId, ObjectDictionary, SdoClientManager};

/// Document 01's P7: an entry with two bytes, and an empty one.
const DCF: [u8; 20] = [
    2, 0, 0, 0, 0x00, 0x21, 1, 2, 0, 0, 0, 0x01, 0x04, 0x01, 0x21, 0, 0, 0, 0, 0,
];

/// A manager with a DCF that has sent its opening, a read that waits, and an Idle node.
fn manager() -> SdoClientManager {
    let parameters = ObjectDictionary::default();
    let mut manager = SdoClientManager::new();
    let dcf = manager.start_configuration_download(NodeId(9), DCF.to_vec(), 5, &parameters);
    assert_eq!(dcf, Ok(()));
    assert!(manager.get_pending_request(7, &parameters).is_some());
    let read = manager.read_object_by_index(NodeId(10), 0x2100, 1, 3, &parameters);
    assert_eq!(read, Ok(()));
    let short = manager.start_configuration_download(NodeId(255), vec![1], 0, &parameters);
    assert!(short.is_err());
    manager
}

/// What the manager shows of the DCF.
fn opening() -> Held {
    Held {
        node: 9,
        state: State::Opening,
        transaction: 2,
        send: 1,
        last: 63,
        buffer: vec![0x00, 0x21, 0x01, 0x00, 0x01, 0x04],
        offset: 0,
        total: 6,
        deadline: Some(15_000_007),
        retries: 2,
        outstanding: Some(0),
        dcf: Some(DcfLeft {
            length: 20,
            offset: 13,
            entries: 1,
        }),
        read_waits: false,
    }
}

#[test]
fn every_field() {
    let read = Held {
        node: 10,
        transaction: 2,
        send: 0,
        buffer: vec![],
        total: 0,
        deadline: Some(15_000_003),
        outstanding: None,
        dcf: None,
        read_waits: true,
        ..opening()
    };
    let idle = Held {
        node: 255,
        state: State::Idle,
        transaction: 0,
        deadline: None,
        retries: 0,
        read_waits: false,
        ..read.clone()
    };
    let expected = Table {
        held: vec![opening(), read, idle],
        transaction: 3,
    };
    assert_eq!(table(&format!("{:?}", manager())), Ok(expected));
}

#[test]
fn nothing_held() {
    let text = format!("{:?}", SdoClientManager::new());
    assert_eq!(table(&text), Ok(Table::default()));
}

#[test]
fn one_connection() {
    let held = connection(&format!("{:?}", Connection::new(NodeId(3)))).unwrap();
    assert_eq!((held.node, held.state, held.last), (3, State::Idle, 63));
}

#[test]
fn a_text_that_ends_early() {
    let text = format!("{:?}", manager());
    for end in 0..text.len() {
        assert!(table(&text[..end]).is_err(), "{end} of {}", text.len());
    }
    assert!(table(&format!("{text} ")).is_err());
}

#[test]
fn damaged_texts() {
    let text = format!("{:?}", manager());
    for (from, to) in [
        ("state: Idle", "state: Asleep"),
        (
            "last_received_sequence_number: 63",
            "last_received_sequence_number: 256",
        ),
        ("offset: 0", "offset: "),
        (
            "deadline_us: Some(15000007)",
            "deadline_us: Some(99999999999999999999)",
        ),
        ("data_buffer: []", "data_buffer: [1 2]"),
        ("NodeId(10): ", "NodeId(11): "),
        ("retries_left: 2", "retries: 2"),
        ("entries_remaining", "entries"),
    ] {
        assert!(text.contains(from), "{from}");
        let damaged = text.replacen(from, to, 1);
        assert!(table(&damaged).is_err(), "{to}");
    }
}
