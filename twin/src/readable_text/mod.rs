//! The readable text: images, logs and queries as lines, for the commands that pack and unpack.

pub mod parse;
pub mod print;
mod words;
