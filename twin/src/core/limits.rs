//! The sizes of a core, its image, its event log, a copy, a report, a file of access queries and the window of
//! a run (rules S1 to S4, S9, S10, H1, H5, L6, N13, N22, N25 and N27).

pub const MAX_VMS: usize = 8;
pub const MAX_QUEUE: usize = 16;
pub const MAX_SLOTS: usize = 64;
pub const MAX_SLOT_TICKS: u16 = 1_000;
pub const MAX_REGIONS: usize = 64;
pub const MAX_REGIONS_OF_A_VM: usize = 8;
pub const MAX_IMAGE_BYTES: usize = 1_036;
pub const MAX_LOG_BYTES: usize = 60_000;
pub const MAX_REPORT_LOGS: usize = 16;
pub const QUERY_BYTES: usize = 10;
pub const MAX_QUERIES_BYTES: usize = 60_000;
pub const MAX_EXTENTS: usize = 8;
pub const MAX_EXTENT_BYTES: u32 = 256;
pub const WINDOW_BASE: u32 = 0x4000_0000;
pub const WINDOW_BYTES: usize = 16_384;
pub const WINDOW_ROW_BYTES: usize = 32;
