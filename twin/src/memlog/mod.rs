//! The window of a run: its files, and what the program `memlog` prints.

pub mod folder;
pub mod text;
