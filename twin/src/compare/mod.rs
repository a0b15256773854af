//! The comparison of the programs with the twin, and the test that it notices mistakes.

pub mod accesses;
pub mod child;
pub mod difference;
pub mod files;
pub mod memories;
pub mod reports;
pub mod selftest;
pub mod stream;
pub mod whole;
