//! The access query: what it asks, what a configuration answers, and what the program `access` prints.

pub mod folder;
pub mod grants;
pub mod query;
pub mod text;
