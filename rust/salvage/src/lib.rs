//! The repository's own walk of a concise DCF as a salvage: what must come out of one that was damaged, and
//! our program salvages held against it.
//!
//! `repair` says which part of an answer comes from where. Where the repository's files are not at hand,
//! nothing is here.

#![cfg(has_oracle)]

pub mod batch;
pub mod compare;
mod counts;
pub mod difference;
pub mod kinds;
mod long;
pub mod repair;
pub mod sample;
