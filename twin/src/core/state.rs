//! The state of a core: its VM records, its place in the table, its queue and the counts beside it.

use crate::core::limits::{MAX_QUEUE, MAX_VMS};

/// The status fields by index; a field's offset is four times its index.
pub const TICKS_SINCE_START: usize = 0;
pub const TICKS_LEFT: usize = 1;
pub const ENABLED: usize = 2;
pub const PENDING: usize = 3;
pub const RESUME_ADDRESS: usize = 4;
pub const REASON: usize = 5;
pub const PREVIOUS_ENABLED: usize = 6;
pub const RESTORE_REGISTER: usize = 7;
pub const GENERATE_ON_TICK: usize = 8;
pub const TICKS_WHILE_RUNNING: usize = 9;
pub const FIELD_COUNT: usize = 10;

#[derive(Clone, Copy, Debug, Default, PartialEq, Eq)]
pub enum Standing {
    #[default]
    None = 0,
    Ready = 1,
    Stopped = 2,
    ShutDown = 3,
    InError = 4,
}

#[derive(Clone, Copy, Debug, Default, PartialEq, Eq)]
pub struct Vm {
    pub standing: Standing,
    pub address: u32,
    pub fields: [u32; FIELD_COUNT],
    pub age: u32,
    pub ticks_run: u32,
}

impl Vm {
    /// A VM as Start and Restart make it.
    pub fn ready_at(entry: u32) -> Vm {
        Vm { standing: Standing::Ready, address: entry, ..Vm::default() }
    }

    /// The numbers that are pending and enabled, a bit for each (D11).
    pub fn deliverable(&self) -> u32 {
        self.fields[PENDING] & self.fields[ENABLED]
    }
}

/// The requests for extra time, oldest first. Places behind the entries hold zero.
#[derive(Clone, Copy, Debug, Default, PartialEq, Eq)]
pub struct Queue {
    pub count: u8,
    pub places: [u8; MAX_QUEUE],
    /// The queue counts (T10): kept step by step and never counted anew, so that a mistake would show.
    pub vm_counts: [u8; MAX_VMS],
}

impl Queue {
    pub fn entries(&self) -> &[u8] {
        &self.places[..usize::from(self.count)]
    }

    /// Appends an entry, and the count of its VM grows; there must be a free place.
    pub fn push(&mut self, vm: u8) {
        self.places[usize::from(self.count)] = vm;
        self.count += 1;
        self.vm_counts[usize::from(vm)] += 1;
    }

    /// Takes out the entry at an index, and the count of its VM falls; the later ones move up.
    pub fn take(&mut self, index: usize) -> Option<u8> {
        let vm = *self.entries().get(index)?;
        self.places.copy_within(index + 1.., index);
        self.places[MAX_QUEUE - 1] = 0;
        self.count -= 1;
        self.vm_counts[usize::from(vm)] -= 1;
        Some(vm)
    }

    /// Removes every entry of a VM and answers how many they were; the rest keep their order. The count of
    /// the VM becomes 0.
    pub fn remove(&mut self, vm: u8) -> u8 {
        let mut rest = [0; MAX_QUEUE];
        let mut staying = 0;
        for &entry in self.entries().iter().filter(|entry| **entry != vm) {
            rest[usize::from(staying)] = entry;
            staying += 1;
        }
        let removed = self.count - staying;
        (self.count, self.places) = (staying, rest);
        self.vm_counts[usize::from(vm)] = 0;
        removed
    }

    /// How many entries a VM has, counted in the queue itself.
    pub fn count_of(&self, vm: u8) -> u8 {
        self.entries().iter().map(|entry| u8::from(*entry == vm)).sum()
    }
}

#[derive(Clone, Debug, Default, PartialEq, Eq)]
pub struct State {
    pub started: bool,
    pub ticked: bool,
    /// The slot of the table that holds now; means something once ticked.
    pub slot: u8,
    /// The ticks left of that slot, the present one included.
    pub left: u16,
    pub running: Option<u8>,
    pub queue: Queue,
    pub vms: [Vm; MAX_VMS],
}
