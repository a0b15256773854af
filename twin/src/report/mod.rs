//! The tick report and the folder that it is made from.

pub mod figures;
pub mod folder;
