//! A second implementation of the stripe register, written from document 01 and
//! the requests alone, to compare with. It favours short definitions over speed.

#![deny(unsafe_code)]

pub mod bench;
pub mod brick;
pub mod code;
pub mod coordinator;
pub mod edges;
pub mod field;
pub mod fixtures;
pub mod harness;
pub mod image;
pub mod inplace;
pub mod inplace_coordinator;
pub mod inplace_tables;
pub mod order;
#[allow(unsafe_code)]
pub mod proved;
pub mod recovery;
pub mod rng;
pub mod script;
pub mod settings;
pub mod tally;
