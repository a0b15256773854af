//! The core: its sizes, its configuration with the memory regions, its state, its events, what each of them
//! does, and the window of a copy.

pub mod actions;
mod apply;
pub mod config;
pub mod copy;
pub mod event;
pub mod flaw;
pub mod limits;
pub mod memory;
mod miscount;
pub mod refusal;
pub mod region;
pub mod state;
pub mod tick;
pub mod window;
mod wrong;

pub use apply::Core;
