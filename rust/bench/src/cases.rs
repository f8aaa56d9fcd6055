//! What is measured: reading and writing the sequence header, and the command with payloads of 0, 64
//! and 1452 bytes. Each case is a function of its own that keeps its name, so that callgrind can tell
//! its cost; both sides have it from the same text. The buffers are not cleared between calls.

use std::hint::black_box;

/// How often each case is called.
pub const CALLS: u64 = 1_000;
const SEQUENCE: usize = 4;
const HEADER: usize = 8;

/// A case: what it is, and the names of its functions.
pub struct Case {
    pub title: &'static str,
    pub ours: &'static str,
    pub theirs: &'static str,
}

/// The cases of the sequence header for one side.
macro_rules! sequence_cases {
    ($side:ident, $drive:ident, $read:ident, $write:ident) => {
        #[no_mangle]
        #[inline(never)]
        fn $read(frame: &[u8; SEQUENCE]) -> bool {
            black_box($side::SequenceLayerHeader::deserialize(black_box(frame))).is_ok()
        }

        #[no_mangle]
        #[inline(never)]
        fn $write(header: &$side::SequenceLayerHeader, buffer: &mut [u8; SEQUENCE]) -> bool {
            black_box(black_box(header).serialize(black_box(buffer))).is_ok()
        }

        fn $drive() {
            let header = $side::SequenceLayerHeader {
                receive_sequence_number: 63,
                receive_con: $side::ReceiveConnState::ConnectionValid,
                send_sequence_number: 1,
                send_con: $side::SendConnState::ConnectionValidAckRequest,
            };
            let mut buffer = [0; SEQUENCE];
            for _ in 0..CALLS {
                assert!($write(&header, &mut buffer));
                assert!($read(&buffer));
            }
        }
    };
}

/// The cases of the command with one length of payload for one side. The buffer's length is part of
/// the functions' types: the compiler would make one function of two that are the same.
macro_rules! command_cases {
    ($side:ident, $payload:literal, $drive:ident, $read:ident, $write:ident) => {
        #[no_mangle]
        #[inline(never)]
        fn $read(frame: &[u8; HEADER + $payload]) -> bool {
            black_box($side::SdoCommand::deserialize(black_box(frame))).is_ok()
        }

        #[no_mangle]
        #[inline(never)]
        fn $write(command: &$side::SdoCommand, buffer: &mut [u8; HEADER + $payload]) -> bool {
            black_box(black_box(command).serialize(black_box(buffer))).is_ok()
        }

        fn $drive() {
            let command = $side::SdoCommand {
                header: $side::CommandLayerHeader {
                    command_id: $side::CommandId::WriteByIndex,
                    segment_size: $payload,
                    ..Default::default()
                },
                data_size: None,
                payload: [0x5A; $payload].as_slice().into(),
            };
            let mut buffer = [0; HEADER + $payload];
            for _ in 0..CALLS {
                assert!($write(&command, &mut buffer));
                assert!($read(&buffer));
            }
        }
    };
}

/// Makes the cases' functions for both sides, their list, and the function that runs them all.
macro_rules! cases {
    ($($of:ident($($payload:literal)?): $drive_ours:ident, $drive_theirs:ident;
        $read:literal, $read_ours:ident, $read_theirs:ident;
        $write:literal, $write_ours:ident, $write_theirs:ident;)+) => {
        $(
            $of!(ostelumiv, $($payload,)? $drive_ours, $read_ours, $write_ours);
            $of!(oracle, $($payload,)? $drive_theirs, $read_theirs, $write_theirs);
        )+

        pub const CASES: &[Case] = &[$(
            Case {
                title: $read,
                ours: stringify!($read_ours),
                theirs: stringify!($read_theirs),
            },
            Case {
                title: $write,
                ours: stringify!($write_ours),
                theirs: stringify!($write_theirs),
            },
        )+];

        /// Runs every case.
        pub fn drive() {
            $(
                $drive_ours();
                $drive_theirs();
            )+
        }
    };
}

cases! {
    sequence_cases(): ours_sequence, rust_sequence;
    "sequence read", ours_sequence_read, rust_sequence_read;
    "sequence write", ours_sequence_write, rust_sequence_write;

    command_cases(0): ours_command_0, rust_command_0;
    "command read, payload 0", ours_command_read_0, rust_command_read_0;
    "command write, payload 0", ours_command_write_0, rust_command_write_0;

    command_cases(64): ours_command_64, rust_command_64;
    "command read, payload 64", ours_command_read_64, rust_command_read_64;
    "command write, payload 64", ours_command_write_64, rust_command_write_64;

    command_cases(1452): ours_command_1452, rust_command_1452;
    "command read, payload 1452", ours_command_read_1452, rust_command_read_1452;
    "command write, payload 1452", ours_command_write_1452, rust_command_write_1452;
}
