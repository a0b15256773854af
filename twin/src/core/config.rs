//! A configuration as an image describes it, and the test whether it is legal (rules S1 to S8 and H1).

use crate::core::flaw::Flaw;
use crate::core::limits::{MAX_QUEUE, MAX_REGIONS, MAX_SLOTS, MAX_SLOT_TICKS, MAX_VMS};
use crate::core::region::Region;

/// The owner number of a spare slot.
pub const SPARE: u8 = 255;

/// Where one VM starts, and where its pseudo-interrupts go.
#[derive(Clone, Copy, Debug, Default, PartialEq, Eq)]
pub struct VmPlace {
    pub entry: u32,
    pub handler: u32,
}

/// One row of the schedule table.
#[derive(Clone, Copy, Debug, Default, PartialEq, Eq)]
pub struct Slot {
    pub owner: u8,
    pub ticks: u16,
}

#[derive(Clone, Debug, PartialEq, Eq)]
pub struct Config {
    pub vm_count: u8,
    pub queue_size: u8,
    pub region_count: u8,
    pub slot_count: u8,
    pub vms: [VmPlace; MAX_VMS],
    pub regions: [Region; MAX_REGIONS],
    pub slots: [Slot; MAX_SLOTS],
}

impl Config {
    /// The configuration of zeros only, which is not legal.
    pub fn zero() -> Config {
        Config {
            vm_count: 0,
            queue_size: 0,
            region_count: 0,
            slot_count: 0,
            vms: [VmPlace::default(); MAX_VMS],
            regions: [Region::default(); MAX_REGIONS],
            slots: [Slot::default(); MAX_SLOTS],
        }
    }

    /// The slots of the table, without the empty places behind them.
    pub fn table(&self) -> &[Slot] {
        &self.slots[..usize::from(self.slot_count)]
    }

    /// Do rules S1 to S7 and H1 to H6 hold?
    pub fn legal(&self) -> bool {
        self.legal_for(Flaw::None)
    }

    /// What a wrong twin takes for legal.
    pub fn legal_for(&self, flaw: Flaw) -> bool {
        self.counts_legal()
            && self.slots_legal()
            && self.every_vm_has_a_slot()
            && self.rest_is_zero()
            && self.regions_legal(flaw)
    }

    fn counts_legal(&self) -> bool {
        (1..=MAX_VMS).contains(&usize::from(self.vm_count))
            && usize::from(self.queue_size) <= MAX_QUEUE
            && usize::from(self.region_count) <= MAX_REGIONS
            && (1..=MAX_SLOTS).contains(&usize::from(self.slot_count))
    }

    fn slots_legal(&self) -> bool {
        self.table().iter().all(|slot| match slot.owner {
            SPARE => slot.ticks == 1,
            owner => owner < self.vm_count && (1..=MAX_SLOT_TICKS).contains(&slot.ticks),
        })
    }

    /// Rule S6, for the end record of an image too.
    pub fn every_vm_has_a_slot(&self) -> bool {
        (0..self.vm_count).all(|vm| self.table().iter().any(|slot| slot.owner == vm))
    }

    fn rest_is_zero(&self) -> bool {
        self.vms[usize::from(self.vm_count)..].iter().all(|vm| *vm == VmPlace::default())
            && self.regions[usize::from(self.region_count)..].iter().all(Region::is_zero)
            && self.slots[usize::from(self.slot_count)..].iter().all(|slot| *slot == Slot::default())
    }
}
