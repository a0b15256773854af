//! Runs: what one of them prints, and many of them in one stream.

pub mod digits;
pub mod frames;
pub mod text;
