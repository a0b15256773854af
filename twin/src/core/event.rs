//! The events of a log and the answer that each of them gets.

use crate::core::limits::MAX_EXTENTS;

/// One part of a Copy: so many bytes from the source to the destination (E13).
#[derive(Clone, Copy, Debug, Default, PartialEq, Eq)]
pub struct Extent {
    pub source: u32,
    pub destination: u32,
    pub length: u32,
}

/// What a Copy asks for: the record has eight extents, whatever the count is (E13).
#[derive(Clone, Copy, Debug, Default, PartialEq, Eq)]
pub struct CopyRequest {
    pub count: u8,
    pub next: u32,
    pub extents: [Extent; MAX_EXTENTS],
}

impl CopyRequest {
    /// A request whose count is how many extents are named; the others are zero.
    pub fn of(next: u32, named: &[Extent]) -> CopyRequest {
        let mut extents = [Extent::default(); MAX_EXTENTS];
        extents[..named.len()].copy_from_slice(named);
        CopyRequest { count: named.len() as u8, next, extents }
    }

    /// The first extents, as many as the count says and as there are (D34).
    pub fn in_use(&self) -> &[Extent] {
        &self.extents[..usize::from(self.count).min(MAX_EXTENTS)]
    }
}

/// One event, with what its record says.
#[derive(Clone, Copy, Debug, PartialEq, Eq)]
pub enum Event {
    Start,
    Tick { address: u32 },
    Stop { vm: u8 },
    Shutdown { vm: u8 },
    Restart { vm: u8 },
    Extra { vm: u8 },
    Call { service: u8, argument: u32, next: u32 },
    Write { offset: u8, value: u32 },
    Fault { code: u8, data: u32 },
    Copy(CopyRequest),
}

impl Event {
    /// The VM whose entries all leave the queue at this event, if it is done (A8); the VM that ran before it is
    /// given, and the one that runs after it: whether a Copy ends its VM is for the core to say.
    pub fn removes_entries_of(self, running: Option<u8>, after: Option<u8>) -> Option<u8> {
        match self {
            Event::Stop { vm } | Event::Restart { vm } => Some(vm),
            Event::Fault { .. } | Event::Call { service: 3 | 5.., .. } => running,
            Event::Call { service: 2, argument: 32.., .. } => running,
            Event::Copy(_) if after.is_none() => running,
            _ => None,
        }
    }
}

/// What the master is told: 0 nothing, 1 stopped, 2 shut down, 3 in error.
#[derive(Clone, Copy, Debug, Default, PartialEq, Eq)]
pub struct Notice {
    pub number: u8,
    pub vm: u8,
    pub code: u8,
    pub data: u32,
}

/// What an accepted event brought besides the new state.
#[derive(Clone, Copy, Debug, Default, PartialEq, Eq)]
pub struct Outcome {
    pub delivered: Option<u8>,
    pub notice: Notice,
    pub result: u8,
    pub removed: u8,
}

/// The whole answer of one event. The address of no VM is 0.
#[derive(Clone, Copy, Debug, Default, PartialEq, Eq)]
pub struct Answer {
    pub refusal: u8,
    pub running: Option<u8>,
    pub address: u32,
    pub delivered: Option<u8>,
    pub notice: Notice,
    pub result: u8,
    /// How many entries the event removed from the queue (A8).
    pub removed: u8,
}
