//! The repository's manager replays traces (document 01, "Replay"), and our replay programs are held
//! against it.
//!
//! `client` is the repository's manager with document 01's additions around it, and says which answer
//! comes from where. Where the repository's files are not at hand, nothing is here.

#![cfg(has_oracle)]

mod client;
pub mod compare;
mod counts;
pub mod cover;
mod dcf;
mod debug_text;
mod difference;
pub mod fixed;
mod gather;
pub mod generate;
pub mod head;
mod ledger;
mod line;
mod mirror;
mod observe;
mod parameters;
mod published;
mod refusal;
pub mod rules;
pub mod stream;
mod sum;
mod table;
mod watched;
