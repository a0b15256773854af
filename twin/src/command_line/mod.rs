//! The command line: the commands and their options.

pub mod commands;
mod files;
pub mod options;
