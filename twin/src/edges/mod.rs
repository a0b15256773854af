//! The fixed cases and folders that every comparison begins with.

pub mod access;
pub mod cases;
pub mod copies;
pub mod counts;
pub mod memories;
pub mod regions;
pub mod removals;
pub mod reports;
