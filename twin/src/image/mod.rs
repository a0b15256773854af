//! The bytes of a configuration image.

pub mod read;
pub mod region_fault;
pub mod write;
