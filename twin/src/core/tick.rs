//! Start, the tick with its step through the table, and the delivery of pseudo-interrupts.

use crate::core::config::SPARE;
use crate::core::event::Outcome;
use crate::core::flaw::Flaw;
use crate::core::state::{self, Vm};
use crate::core::Core;

impl Core {
    /// Every VM ready at its entry; nothing runs until the first tick.
    pub(crate) fn start(&mut self) -> Outcome {
        self.state.started = true;
        for index in 0..usize::from(self.config.vm_count) {
            self.state.vms[index] = Vm::ready_at(self.config.vms[index].entry);
        }
        Outcome::default()
    }

    pub(crate) fn tick(&mut self, address: u32) -> Outcome {
        if let Some(vm) = self.state.running {
            self.vm_mut(vm).address = address;
        }
        self.age_all();
        self.step_table();
        let queued = self.state.queue.count;
        self.state.running = self.choose();
        let served = queued - self.state.queue.count;
        let Some(vm) = self.state.running else {
            return Outcome::default();
        };
        self.show_clocks(vm);
        self.generate(vm);
        // The entry that a spare tick takes is served, not removed (A8).
        let removed = if self.flaw == Flaw::ServedIsRemoved { served } else { 0 };
        Outcome { delivered: self.deliver(vm), removed, ..Outcome::default() }
    }

    pub(crate) fn age_all(&mut self) {
        let only_ready = self.flaw == Flaw::OnlyReadyAge;
        for index in 0..self.config.vm_count {
            if !only_ready || self.is_ready(index) {
                let vm = self.vm_mut(index);
                vm.age = vm.age.wrapping_add(1);
            }
        }
    }

    /// The first tick enters slot 0; later ones count down, and then begin the next slot.
    fn step_table(&mut self) {
        if !self.state.ticked {
            self.state.ticked = true;
            self.begin_slot(0);
        } else if self.state.left > 1 {
            self.state.left -= 1;
        } else if self.state.slot + 1 < self.config.slot_count {
            self.begin_slot(self.state.slot + 1);
        } else {
            self.begin_slot(0);
        }
    }

    fn begin_slot(&mut self, slot: u8) {
        let row = self.config.slots[usize::from(slot)];
        self.state.slot = slot;
        self.state.left = row.ticks;
        if self.flaw == Flaw::SpareChargedToSlice && row.owner != SPARE {
            let owed = &mut self.owed[usize::from(row.owner)];
            let charge = (*owed).min(row.ticks - 1);
            *owed -= charge;
            self.state.left -= charge;
        }
    }

    /// Who gets this tick, by the slot that holds now.
    fn choose(&mut self) -> Option<u8> {
        let owner = self.config.slots[usize::from(self.state.slot)].owner;
        if owner != SPARE {
            return Some(owner).filter(|vm| self.is_ready(*vm));
        }
        let index = match self.flaw {
            Flaw::NewestEntryFirst => usize::from(self.state.queue.count.saturating_sub(1)),
            _ => 0,
        };
        let vm = self.state.queue.take(index);
        if let (Some(vm), Flaw::SpareChargedToSlice) = (vm, self.flaw) {
            self.owed[usize::from(vm)] += 1;
        }
        vm
    }

    /// The three fields that the core sets from its own numbers.
    fn show_clocks(&mut self, vm: u8) {
        let left = u32::from(self.state.left);
        let guest_clock = self.flaw == Flaw::GuestClock;
        let vm = self.vm_mut(vm);
        vm.ticks_run = vm.ticks_run.wrapping_add(1);
        vm.fields[state::TICKS_SINCE_START] = vm.age;
        vm.fields[state::TICKS_LEFT] = left;
        let own_copy = vm.fields[state::TICKS_WHILE_RUNNING].wrapping_add(1);
        vm.fields[state::TICKS_WHILE_RUNNING] = if guest_clock { own_copy } else { vm.ticks_run };
    }

    fn generate(&mut self, running: u8) {
        for index in 0..self.config.vm_count {
            if index == running || self.flaw == Flaw::GenerateForEveryone {
                let vm = self.vm_mut(index);
                vm.fields[state::PENDING] |= vm.fields[state::GENERATE_ON_TICK];
            }
        }
    }

    /// Delivers the highest number that is pending and enabled, if there is one (D11).
    pub(crate) fn deliver(&mut self, vm: u8) -> Option<u8> {
        let both = self.vm(vm).deliverable();
        let number = match self.flaw {
            Flaw::LowestNumberFirst => (0..32).find(|bit| both >> bit & 1 == 1)?,
            _ => (0..32).rev().find(|bit| both >> bit & 1 == 1)?,
        };
        Some(self.hand_over(vm, number))
    }

    /// Hands a number to the VM's handler and answers it (D12).
    pub(crate) fn hand_over(&mut self, vm: u8, number: u32) -> u8 {
        let flaw = self.flaw;
        let handler = self.config.vms[usize::from(vm)].handler;
        let vm = self.vm_mut(vm);
        vm.fields[state::REASON] = number;
        vm.fields[state::PREVIOUS_ENABLED] = vm.fields[state::ENABLED];
        vm.fields[state::ENABLED] = 0;
        vm.fields[state::PENDING] &= if flaw == Flaw::ClearsAllPending { 0 } else { !(1 << number) };
        vm.fields[state::RESUME_ADDRESS] = vm.address;
        vm.address = handler;
        number as u8
    }
}
