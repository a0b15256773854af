//! Which events are refused, and the test whether a state is sound.

use crate::core::config::SPARE;
use crate::core::event::Event;
use crate::core::flaw::Flaw;
use crate::core::state::{Standing, Vm, FIELD_COUNT};
use crate::core::Core;

impl Core {
    /// The refusal number of an event in this state; 0 where it is done.
    pub fn refusal_of(&self, event: Event) -> u8 {
        if !self.sound() {
            return 1;
        }
        match (event, self.state.started) {
            (Event::Start, true) => 7,
            (Event::Start, false) => 0,
            (Event::Copy(_), false) if self.flaw == Flaw::CopyBeforeStartTaken => 0,
            (_, false) => 2,
            (_, true) => self.refusal_when_started(event),
        }
    }

    fn refusal_when_started(&self, event: Event) -> u8 {
        match event {
            Event::Start | Event::Tick { .. } => 0,
            Event::Stop { vm } | Event::Shutdown { vm } => self.refusal_unless_ready(vm),
            Event::Restart { vm } if vm >= self.config.vm_count => 3,
            Event::Restart { .. } => 0,
            Event::Extra { vm } => match self.refusal_unless_ready(vm) {
                0 if self.queue_full() => 6,
                refusal => refusal,
            },
            Event::Copy(_) if self.flaw == Flaw::CopyByNobodyTaken => 0,
            _ if self.state.running.is_none() => 5,
            Event::Write { offset, .. } if !is_field_offset(offset) => 8,
            Event::Fault { code, .. } if !(3..=5).contains(&code) => 9,
            _ => 0,
        }
    }

    fn refusal_unless_ready(&self, vm: u8) -> u8 {
        if vm >= self.config.vm_count {
            3
        } else if self.vm(vm).standing != Standing::Ready {
            4
        } else {
            0
        }
    }

    /// Is this a state that the events keep? (A standing or flag without a meaning cannot be
    /// written down in this program, so it needs no test here.)
    pub fn sound(&self) -> bool {
        self.config.legal_for(self.flaw)
            && self.spare_records_fresh()
            && self.queue_sound()
            && self.counts_sound()
            && self.start_sound()
            && self.place_sound()
            && self.running_sound()
    }

    fn spare_records_fresh(&self) -> bool {
        let count = usize::from(self.config.vm_count);
        self.state.vms[count..].iter().all(|vm| *vm == Vm::default())
    }

    fn queue_sound(&self) -> bool {
        let queue = &self.state.queue;
        queue.count <= self.config.queue_size
            && queue.entries().iter().all(|vm| self.is_ready(*vm))
            && queue.places[usize::from(queue.count)..].iter().all(|place| *place == 0)
    }

    /// Each of the eight counts, those past the VM count too (W13).
    fn counts_sound(&self) -> bool {
        let queue = &self.state.queue;
        (0..).zip(queue.vm_counts).all(|(vm, count)| count == queue.count_of(vm))
    }

    /// What must not be before Start and before the first tick.
    fn start_sound(&self) -> bool {
        let state = &self.state;
        let none_ready = state.vms.iter().all(|vm| vm.standing != Standing::Ready);
        let quiet = none_ready && state.queue.count == 0 && state.running.is_none() && !state.ticked;
        (state.ticked || state.running.is_none()) && (state.started || quiet)
    }

    fn place_sound(&self) -> bool {
        let Some(slot) = self.config.table().get(usize::from(self.state.slot)) else {
            return !self.state.ticked;
        };
        !self.state.ticked || (1..=slot.ticks).contains(&self.state.left)
    }

    fn running_sound(&self) -> bool {
        let Some(vm) = self.state.running else {
            return true;
        };
        let slot = self.config.slots.get(usize::from(self.state.slot));
        let owner_fits = slot.is_some_and(|slot| slot.owner == vm || slot.owner == SPARE);
        self.is_ready(vm) && owner_fits
    }

    pub(crate) fn is_ready(&self, vm: u8) -> bool {
        let record = self.state.vms.get(usize::from(vm));
        record.is_some_and(|vm| vm.standing == Standing::Ready)
    }
}

/// The offsets of the ten status fields: 0, 4, and so on to 36.
pub fn is_field_offset(offset: u8) -> bool {
    offset.is_multiple_of(4) && usize::from(offset) < 4 * FIELD_COUNT
}
