//! The independent twin: a second codec, core and run text, and the tools that compare with them.

pub mod access;
pub mod command_line;
pub mod compare;
pub mod core;
pub mod coverage;
pub mod edges;
pub mod generate;
pub mod image;
pub mod log;
pub mod memlog;
pub mod readable_text;
pub mod report;
pub mod run;
