//! The wrapper on document 01's own bytes and on both sides of its edges: every expected value is
//! written out.

use ostelumiv::*;

/// The second command of document 01's run, without its sequence header.
const WRITE: [u8; 14] = [
    0x00, 0x01, 0x00, 0x01, 0x06, 0x00, 0x00, 0x00, 0x00, 0x21, 0x01, 0x00, 0x01, 0x04,
];

const WRITE_HEADER: CommandLayerHeader = CommandLayerHeader {
    transaction_id: 1,
    is_response: false,
    is_aborted: false,
    segmentation: Segmentation::Expedited,
    command_id: CommandId::WriteByIndex,
    segment_size: 6,
};

/// The DCF of P7: two entries.
const DCF: [u8; 20] = [
    0x02, 0x00, 0x00, 0x00, 0x00, 0x21, 0x01, 0x02, 0x00, 0x00, 0x00, 0x01, 0x04, 0x01, 0x21, 0x00,
    0x00, 0x00, 0x00, 0x00,
];

const FIRST: DcfEntry = DcfEntry {
    index: 0x2100,
    sub_index: 1,
    data: &[0x01, 0x04],
};

const SECOND: DcfEntry = DcfEntry {
    index: 0x2101,
    sub_index: 0,
    data: &[],
};

#[test]
fn refusals_have_document_01s_numbers_and_names() {
    let listed: Vec<String> = Refusal::ALL.iter().map(Refusal::to_string).collect();
    let paper = "1 BufferTooShort, 2 InvalidEnumValue, 3 SdoInvalidCommandPayload, 4 Busy, \
                 5 DcfTooShort, 6 TableFull, 7 NoRoom, 8 DeadlineRange, 9 WrongStore, \
                 10 BadRecord, 11 ShortRecord";
    assert_eq!(listed.join(", "), paper);
}

#[test]
fn command_numbers_are_document_01s() {
    let numbers: Vec<u8> = CommandId::ALL.iter().map(|id| id.number()).collect();
    let paper = [0, 1, 2, 3, 4, 5, 6, 0x20, 0x21, 0x31, 0x32, 0x40, 0x70];
    assert_eq!(numbers, paper);
    let named = (0..=255).filter_map(CommandId::from_number);
    assert!(named.eq(CommandId::ALL.iter().copied()));
    assert!((0..13).filter_map(command_at).eq(paper));
    assert!((13..256)
        .chain([usize::MAX])
        .all(|place| command_at(place).is_none()));
}

#[test]
fn sequence_header_of_p10() {
    let read = SequenceLayerHeader::deserialize(&[0xFE, 0x00, 0xAA, 0xBB]);
    let header = SequenceLayerHeader {
        receive_sequence_number: 63,
        receive_con: ReceiveConnState::ConnectionValid,
        send_sequence_number: 0,
        send_con: SendConnState::NoConnection,
    };
    assert_eq!(read, Ok(header));
    let mut buffer = [0x55; 5];
    assert_eq!(header.serialize(&mut buffer), Ok(4));
    assert_eq!(buffer, [0xFE, 0x00, 0x00, 0x00, 0x55]);
}

#[test]
fn sequence_header_refused() {
    let mut buffer = [0x55; 3];
    let header = SequenceLayerHeader::default();
    let short = Err(Refusal::BufferTooShort);
    assert_eq!(SequenceLayerHeader::deserialize(&[]), short);
    assert_eq!(SequenceLayerHeader::deserialize(&buffer), short);
    assert_eq!(header.serialize(&mut buffer), Err(Refusal::BufferTooShort));
    assert_eq!(header.serialize(&mut []), Err(Refusal::BufferTooShort));
    for state in [4, 255] {
        let unknown = Err(Refusal::InvalidEnumValue);
        assert_eq!(sequence_write_numbers(0, state, 0, 0, &mut buffer), unknown);
        assert_eq!(sequence_write_numbers(0, 0, 0, state, &mut []), unknown);
    }
    assert_eq!(buffer, [0x55; 3]);
}

#[test]
fn command_of_document_01s_run() {
    let command = SdoCommand {
        header: WRITE_HEADER,
        data_size: None,
        payload: &[0x00, 0x21, 0x01, 0x00, 0x01, 0x04],
    };
    assert_eq!(SdoCommand::deserialize(&WRITE), Ok(command));
    let mut buffer = [0x55; 15];
    assert_eq!(command.serialize(&mut buffer), Ok(14));
    assert_eq!(buffer[..14], WRITE);
    assert_eq!(buffer[14], 0x55);
    let mut short = [0x55; 13];
    let refused = command.serialize(&mut short);
    assert_eq!(refused, Err(Refusal::BufferTooShort));
    assert_eq!(short, [0x55; 13]);
}

#[test]
fn initiate_carries_a_data_size() {
    let command = SdoCommand {
        header: CommandLayerHeader {
            is_response: true,
            segmentation: Segmentation::Initiate,
            segment_size: 1,
            ..WRITE_HEADER
        },
        data_size: Some(0x0403_0201),
        payload: &[0xEE],
    };
    let bytes = [0, 1, 0x50, 1, 1, 0, 0, 0, 1, 2, 3, 4, 0xEE];
    let mut buffer = [0x55; 13];
    assert_eq!(command.serialize(&mut buffer), Ok(13));
    assert_eq!(buffer, bytes);
    assert_eq!(SdoCommand::deserialize(&bytes), Ok(command));
    let short = Err(Refusal::BufferTooShort);
    assert_eq!(SdoCommand::deserialize(&bytes[..12]), short);
    assert_eq!(SdoCommand::deserialize(&bytes[..11]), short);
}

#[test]
fn abort_of_document_01() {
    let command = SdoCommand {
        header: CommandLayerHeader {
            is_aborted: true,
            command_id: CommandId::Nil,
            segment_size: 4,
            ..WRITE_HEADER
        },
        data_size: None,
        payload: &[0x00, 0x00, 0x04, 0x05],
    };
    let bytes = [0, 1, 0x20, 0, 4, 0, 0, 0, 0x00, 0x00, 0x04, 0x05];
    let mut buffer = [0x55; 12];
    assert_eq!(command.serialize(&mut buffer), Ok(12));
    assert_eq!(buffer, bytes);
    assert_eq!(SdoCommand::deserialize(&bytes), Ok(command));
}

#[test]
fn unknown_numbers_are_refused_ahead_of_room() {
    let unknown = Err(Refusal::InvalidEnumValue);
    let mut damaged = WRITE;
    damaged[3] = 0x07;
    assert_eq!(SdoCommand::deserialize(&damaged[..8]), unknown);
    let command = CommandNumbers {
        command_id: 0x07,
        ..CommandNumbers::default()
    };
    let segmentation = CommandNumbers {
        segmentation: 4,
        ..CommandNumbers::default()
    };
    let unknown = Err(Refusal::InvalidEnumValue);
    assert_eq!(command_write_numbers(&command, &[], &mut []), unknown);
    assert_eq!(command_write_numbers(&segmentation, &[], &mut []), unknown);
}

#[test]
fn request_readers() {
    let payload = [0x00, 0x21, 0x01, 0xFF, 0x01, 0x04];
    let read = ReadByIndexRequest::from_payload(&payload).unwrap();
    assert_eq!((read.index, read.sub_index), (0x2100, 1));
    let write = WriteByIndexRequest::from_payload(&payload).unwrap();
    assert_eq!((write.index, write.sub_index), (0x2100, 1));
    assert_eq!(write.data, [0x01, 0x04]);
    let write_all = WriteAllByIndexRequest::from_payload(&payload).unwrap();
    assert_eq!((write_all.index, write_all.data), (0x2100, &payload[4..]));
    let refused = Refusal::SdoInvalidCommandPayload;
    let short = &payload[..3];
    assert_eq!(ReadByIndexRequest::from_payload(short), Err(refused));
    assert_eq!(WriteByIndexRequest::from_payload(short), Err(refused));
    assert_eq!(WriteAllByIndexRequest::from_payload(&[]), Err(refused));
    assert_eq!(
        ReadMultipleParamRequest::from_payload(&payload),
        Err(refused)
    );
}

#[test]
fn multiple_param_by_place() {
    let payload = [0x00, 0x21, 0x01, 0xFF, 0x01, 0x21, 0x02, 0x00];
    let request = ReadMultipleParamRequest::from_payload(&payload).unwrap();
    let second = MultipleParamEntry {
        index: 0x2101,
        sub_index: 2,
    };
    assert_eq!(request.count(), 2);
    assert_eq!(request.entry(1), Some(second));
    assert_eq!(request.entry(2), None);
    assert_eq!(request.entry(usize::MAX), None);
    assert_eq!(request.entries().count(), 2);
    assert_eq!(request.entries().last(), Some(second));
}

#[test]
fn dcf_of_p7_p8_and_p9() {
    let whole = ConciseDcf::new(&DCF).unwrap();
    assert_eq!(whole.entries().collect::<Vec<_>>(), [FIRST, SECOND]);
    assert_eq!((whole.count(), whole.is_complete()), (2, true));
    let cut = ConciseDcf::new(&DCF[..19]).unwrap();
    assert_eq!(cut.entries().collect::<Vec<_>>(), [FIRST]);
    assert_eq!((cut.count(), cut.is_complete()), (2, false));
    let none = ConciseDcf::new(&[0, 0, 0, 0, 0xFF]).unwrap();
    assert_eq!(none.entries().count(), 0);
    assert!(none.is_complete());
    assert_eq!(ConciseDcf::new(&DCF[..3]), Err(Refusal::DcfTooShort));
}

#[test]
fn dcf_cursors_past_the_end() {
    let dcf = ConciseDcf::new(&DCF).unwrap();
    for at in [14, 20, 21, usize::MAX - 6, usize::MAX] {
        let unreadable = dcf.step(DcfCursor { at, left: 1 });
        assert_eq!(unreadable, DcfStep::Unreadable, "at {at}");
        assert_eq!(dcf.step(DcfCursor { at, left: 0 }), DcfStep::End);
    }
    let last = dcf.step(DcfCursor { at: 13, left: 1 });
    let behind = DcfCursor { at: 20, left: 0 };
    assert_eq!(last, DcfStep::Entry(SECOND, behind));
}
