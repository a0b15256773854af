//! What the wrong twins of the queue counts (T10) make of them, behind an event whose entries are right. The
//! counts of the right twin are kept by the queue itself and pass through here unchanged.

use crate::core::event::Event;
use crate::core::flaw::Flaw;
use crate::core::limits::MAX_VMS;
use crate::core::state::Queue;
use crate::core::Core;

/// What an event found: the queue, and the VM that ran.
pub(crate) struct Found {
    queue: Queue,
    running: Option<u8>,
}

impl Core {
    pub(crate) fn found(&self) -> Found {
        Found { queue: self.state.queue, running: self.state.running }
    }

    /// Puts the counts of a wrong twin in the place of the right ones, after an event that was done.
    pub(crate) fn miscount(&mut self, event: Event, found: &Found) {
        match event {
            Event::Start if self.flaw == Flaw::StartCountsOne => {
                self.state.queue.vm_counts[..usize::from(self.config.vm_count)].fill(1);
            }
            Event::Shutdown { vm } if self.flaw == Flaw::ShutdownClearsCount => *self.count_mut(vm) = 0,
            Event::Extra { vm } => self.miscount_extra(vm, found),
            Event::Call { service: 4, .. } => self.miscount_call(found),
            Event::Tick { .. } => self.miscount_tick(found),
            _ => {
                if let Some(vm) = event.removes_entries_of(found.running, self.state.running) {
                    self.miscount_removal(event, vm, found);
                }
            }
        }
    }

    fn count_mut(&mut self, vm: u8) -> &mut u8 {
        &mut self.state.queue.vm_counts[usize::from(vm)]
    }

    /// Goes back to the counts that an event found, and changes that of one VM, if there is one.
    fn recount(&mut self, found: &Found, vm: Option<u8>, change: impl Fn(u8) -> u8) {
        self.state.queue.vm_counts = found.queue.vm_counts;
        if let Some(vm) = vm {
            let count = self.count_mut(vm);
            *count = change(*count);
        }
    }

    fn miscount_extra(&mut self, vm: u8, found: &Found) {
        let oldest = self.state.queue.entries().first().copied();
        match self.flaw {
            Flaw::ExtraCountsNone => self.recount(found, None, one_more),
            Flaw::ExtraCountsRunning => self.recount(found, found.running, one_more),
            Flaw::ExtraCountsOldest => self.recount(found, oldest, one_more),
            _ => self.miscount_join(vm),
        }
    }

    fn miscount_call(&mut self, found: &Found) {
        let Some(vm) = found.running else {
            return;
        };
        let joined = self.state.queue.count > found.queue.count;
        match self.flaw {
            Flaw::ServiceFourCountsNone => self.recount(found, None, one_more),
            Flaw::FullCallCounts if !joined => self.recount(found, Some(vm), one_more),
            _ => self.miscount_join(vm),
        }
    }

    /// The counts that do not go far enough.
    fn miscount_join(&mut self, vm: u8) {
        let flaw = self.flaw;
        let count = self.count_mut(vm);
        match flaw {
            Flaw::CountIsFlag => *count = (*count).min(1),
            Flaw::CountGoesRound => *count %= 16,
            _ => {}
        }
    }

    fn miscount_tick(&mut self, found: &Found) {
        if self.state.queue.count == found.queue.count {
            // No entry was served: a VM that runs now has a slot of its own.
            if self.flaw == Flaw::NamedTickLowers {
                self.recount(found, self.state.running, one_less);
            }
            return;
        }
        let newest = found.queue.entries().last().copied();
        match self.flaw {
            Flaw::ServedKeepsCount => self.recount(found, None, one_less),
            Flaw::ServedLowersFormer => self.recount(found, found.running, one_less),
            Flaw::ServedClearsCount => self.recount(found, self.state.running, none),
            Flaw::ServedLowersNewest => self.recount(found, newest, one_less),
            Flaw::ServedLowersAll => self.state.queue.vm_counts = found.queue.vm_counts.map(one_less),
            _ => {}
        }
    }

    fn miscount_removal(&mut self, event: Event, vm: u8, found: &Found) {
        match self.flaw {
            Flaw::RemovalLowersByOne => self.recount(found, Some(vm), one_less),
            Flaw::RemovalClearsAll => self.state.queue.vm_counts = [0; MAX_VMS],
            Flaw::RemovalClearsRunning => self.recount(found, found.running, none),
            Flaw::RemovalClearsLaterVms => self.state.queue.vm_counts[usize::from(vm)..].fill(0),
            flaw if keeps_count(flaw, event, found.running) => self.recount(found, None, none),
            _ => {}
        }
    }
}

/// Is this the event at which this wrong twin leaves the count as it was?
fn keeps_count(flaw: Flaw, event: Event, running: Option<u8>) -> bool {
    match flaw {
        Flaw::StopKeepsCount => matches!(event, Event::Stop { .. }),
        Flaw::RestartKeepsCount => matches!(event, Event::Restart { .. }),
        Flaw::RunningRestartKeepsCount => matches!(event, Event::Restart { vm } if running == Some(vm)),
        Flaw::FaultKeepsCount => matches!(event, Event::Fault { .. }),
        Flaw::ServiceThreeKeepsCount => matches!(event, Event::Call { service: 3, .. }),
        Flaw::BadInjectKeepsCount => matches!(event, Event::Call { service: 2, .. }),
        Flaw::UnknownServiceKeepsCount => matches!(event, Event::Call { service: 5.., .. }),
        Flaw::CopyKeepsCount => matches!(event, Event::Copy(_)),
        _ => false,
    }
}

fn one_more(count: u8) -> u8 {
    count + 1
}

fn one_less(count: u8) -> u8 {
    count.saturating_sub(1)
}

fn none(_: u8) -> u8 {
    0
}
