//! The oracle: the SDO client of the repository that this project carries over, compiled unchanged
//! where its files lie, beside small stand-ins for what those files lean on.
//!
//! Its names are those of the repository. The connection, which is private there, is reached through
//! `Connection`. Where the files are not at hand, nothing is here.

#![cfg(has_oracle)]

extern crate alloc;

include!(concat!(env!("OUT_DIR"), "/modules.rs"));

mod connection;
pub mod od;
mod unused;

pub use connection::Connection;
pub use hal::PowerlinkError;
pub use od::ObjectDictionary;
pub use sdo::client_manager::SdoClientManager;
pub use sdo::command::{
    CommandId, CommandLayerHeader, ReadByIndexRequest, ReadMultipleParamRequest, SdoCommand,
    Segmentation, WriteAllByIndexRequest, WriteByIndexRequest,
};
pub use sdo::sequence::{ReceiveConnState, SendConnState, SequenceLayerHeader};
pub use types::NodeId;
pub(crate) use unused::{common, pdo};
