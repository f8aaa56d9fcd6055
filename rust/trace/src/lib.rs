//! Traces for the replay, for a bench technician: readable lines to records of 32 bytes, and records
//! back to such lines.
//!
//! Records are document 01's ("Replay"). Whatever bytes a trace has, `write(read(trace))` is that
//! trace again.

mod fields;
mod notation;
mod operation;
mod read;
mod words;
mod write;

pub use notation::{RECEIVE_STATES, SEND_STATES};
pub use read::read;
pub use words::Fault;
pub use write::{write, Bad};
