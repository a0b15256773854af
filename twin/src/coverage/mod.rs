//! What the cases and the folders of a comparison reach, and what they have to reach.

pub mod access;
pub mod cases;
pub mod copies;
pub mod counts;
pub mod marks;
pub mod memories;
pub mod query_view;
pub mod regions;
pub mod reports;
