//! What the master and the running VM can do: stop, shutdown, restart, write, fault, call.

use crate::core::event::{Notice, Outcome};
use crate::core::flaw::Flaw;
use crate::core::state::{self, Standing, Vm};
use crate::core::Core;

/// The pseudo-interrupt that asks a VM to shut down.
pub const SHUTDOWN_NUMBER: u32 = 11;

/// Error codes that the core itself gives.
pub const CODE_UNKNOWN_SERVICE: u8 = 1;
pub const CODE_BAD_ARGUMENT: u8 = 2;
pub const CODE_NO_ACCESS: u8 = 3;
pub const CODE_TOO_MANY_EXTENTS: u8 = 6;
pub const CODE_EXTENT_TOO_LONG: u8 = 7;

impl Core {
    /// Takes a VM out of ready, its queue entries with it, and the core from it if it was running.
    pub(crate) fn end_vm(&mut self, vm: u8, standing: Standing, notice: Notice) -> Outcome {
        self.vm_mut(vm).standing = standing;
        let removed = match self.flaw {
            Flaw::StoppedStaysQueued => 0,
            _ => self.remove_entries(vm),
        };
        if self.state.running == Some(vm) {
            self.state.running = None;
            if self.flaw == Flaw::StopMovesTable {
                self.state.left = 1;
            }
        }
        Outcome { notice, removed, ..Outcome::default() }
    }

    /// Takes all entries of a VM out of the queue and answers how many they were (A8).
    fn remove_entries(&mut self, vm: u8) -> u8 {
        let all = self.state.queue.count;
        let removed = self.state.queue.remove(vm);
        match self.flaw {
            Flaw::RemovedIsWholeQueue => all,
            Flaw::RemovedIsWhatIsLeft => self.state.queue.count_of(vm),
            _ => removed,
        }
    }

    pub(crate) fn ask_shutdown(&mut self, vm: u8) -> Outcome {
        self.vm_mut(vm).fields[state::PENDING] |= 1 << SHUTDOWN_NUMBER;
        if self.flaw == Flaw::ShutdownAtOnce && self.state.running == Some(vm) {
            return Outcome { delivered: self.deliver(vm), ..Outcome::default() };
        }
        Outcome::default()
    }

    /// As Start does for this VM. A running VM stays the running one.
    pub(crate) fn restart(&mut self, vm: u8) -> Outcome {
        *self.vm_mut(vm) = Vm::ready_at(self.config.vms[usize::from(vm)].entry);
        let removed = match self.flaw {
            Flaw::RestartKeepsQueue => 0,
            _ => self.remove_entries(vm),
        };
        if self.flaw == Flaw::RestartStopsRunning && self.state.running == Some(vm) {
            self.state.running = None;
        }
        let told = if self.flaw == Flaw::RestartTellsNone { 0 } else { removed };
        Outcome { removed: told, ..Outcome::default() }
    }

    pub(crate) fn write(&mut self, offset: u8, value: u32) -> Outcome {
        if let Some(vm) = self.state.running {
            self.vm_mut(vm).fields[usize::from(offset / 4)] = value;
        }
        Outcome::default()
    }

    pub(crate) fn fault(&mut self, code: u8, data: u32) -> Outcome {
        match self.state.running {
            Some(vm) => self.end_vm(vm, Standing::InError, Notice { number: 3, vm, code, data }),
            None => Outcome::default(),
        }
    }

    pub(crate) fn call(&mut self, service: u8, argument: u32, next: u32) -> Outcome {
        let Some(vm) = self.state.running else {
            return Outcome::default();
        };
        let before = self.vm(vm).address;
        self.vm_mut(vm).address = next;
        let outcome = self.serve(vm, service, argument);
        if self.flaw == Flaw::EndingCallKeepsAddress && self.state.running.is_none() {
            self.vm_mut(vm).address = before;
        }
        outcome
    }

    fn serve(&mut self, vm: u8, service: u8, argument: u32) -> Outcome {
        match service {
            0 => Outcome { delivered: self.deliver(vm), ..Outcome::default() },
            1 => self.return_from_handler(vm),
            2 => self.inject(vm, argument),
            3 => self.end_vm(vm, Standing::ShutDown, Notice { number: 2, vm, code: 0, data: 0 }),
            4 if self.queue_full() => Outcome { result: 1, ..Outcome::default() },
            4 => {
                self.state.queue.push(vm);
                Outcome::default()
            }
            5 if self.flaw == Flaw::ServiceFiveIsDone => Outcome::default(),
            _ => self.unknown_service(service),
        }
    }

    /// A service that there is not is an error of the VM (D30).
    fn unknown_service(&mut self, service: u8) -> Outcome {
        let outcome = self.fault(CODE_UNKNOWN_SERVICE, u32::from(service));
        let told = if self.flaw == Flaw::UnknownServiceTellsNone { 0 } else { outcome.removed };
        Outcome { removed: told, ..outcome }
    }

    fn return_from_handler(&mut self, vm: u8) -> Outcome {
        let record = self.vm_mut(vm);
        record.fields[state::ENABLED] = record.fields[state::PREVIOUS_ENABLED];
        record.address = record.fields[state::RESUME_ADDRESS];
        if self.flaw == Flaw::ReturnDoesNotDeliver {
            return Outcome::default();
        }
        Outcome { delivered: self.deliver(vm), ..Outcome::default() }
    }

    /// Service 2 makes the number pending and delivers; a number over 31 is an error of the VM (D27).
    fn inject(&mut self, vm: u8, argument: u32) -> Outcome {
        let number = if self.flaw == Flaw::InjectMasksArgument { argument & 31 } else { argument };
        if number > 31 {
            return self.fault(CODE_BAD_ARGUMENT, number);
        }
        self.vm_mut(vm).fields[state::PENDING] |= 1 << number;
        let enabled = self.vm(vm).fields[state::ENABLED] >> number & 1 == 1;
        let delivered = match self.flaw {
            Flaw::InjectWaits => None,
            Flaw::InjectItsOwn if enabled => Some(self.hand_over(vm, number)),
            _ => self.deliver(vm),
        };
        Outcome { delivered, ..Outcome::default() }
    }
}
