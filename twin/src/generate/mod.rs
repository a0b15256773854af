//! The cases and the random folders of a seed, their parts, and the random numbers behind them.

pub mod access;
pub mod case;
pub mod copies;
pub mod image;
pub mod log;
pub mod memories;
pub mod random;
pub mod regions;
pub mod report;
pub mod values;
