//! The bytes of an event log.

pub mod read;
pub mod write;
