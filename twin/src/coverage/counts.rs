//! What the queue counts (T10) of a comparison have to come to, and how a run shows it.

use crate::core::config::SPARE;
use crate::core::event::{Answer, Event};
use crate::core::limits::{MAX_QUEUE, MAX_VMS};
use crate::core::Core;
use crate::coverage::marks::marks;

// What the count of each VM has to do.
marks! {
    Step:
    /// T10, D20
    GrowsAtExtra = "grows at an Extra",
    /// T10, D29
    GrowsAtCall = "grows at service 4",
    /// T10, D7
    FallsBy1 = "falls at a spare tick, not to 0",
    /// T10, D7
    FallsTo0 = "falls to 0 at a spare tick",
    /// T10, D14, D18
    Cleared = "becomes 0 from 2 or more",
    /// S2, T10
    Sixteen = "comes to 16",
}

// What makes a count 0 from 2 or more while that of another VM stays.
marks! {
    Clearing:
    /// T10, D14, D15
    StopRunning = "Stop of the running VM",
    /// T10, D14
    StopWaiting = "Stop of a VM that waits",
    /// T10, D18, D19
    RestartRunning = "Restart of the running VM",
    /// T10, D18
    RestartWaiting = "Restart of a VM that waits",
    /// T10, D23
    Fault = "Fault",
    /// T10, D28
    ServiceThree = "service 3",
    /// T10, D27
    BadInject = "service 2 over 31",
    /// T10, D30
    UnknownService = "unknown service",
    /// T10, D33, D34
    FailedCopy = "Copy that fails",
}

// Moments at which a count could go wrong.
marks! {
    CountMark:
    /// T10, D20
    ExtraBesideRunning = "counts: Extra for one VM while another runs",
    /// T10, D20
    ExtraWhileIdle = "counts: Extra while nobody runs",
    /// T10, R1
    ExtraFullOwn = "counts: Extra for a VM with entries, queue full",
    /// T10, D29
    CallFullOthers = "counts: service 4 by a VM without entries, queue full of others",
    /// T10, D7, M7
    FormerHasEntries = "counts: spare slot serves one VM after another that has entries",
    /// T10, D7
    FormerIsServed = "counts: spare slot serves the VM that ran before",
    /// T10, D7
    ServedAfterIdle = "counts: spare slot serves after an idle tick",
    /// T10, D7
    NewestIsAnothers = "counts: spare slot serves, the newest entry is another VM's",
    /// T10, D7
    LastIsServed = "counts: spare slot serves the only entry",
    /// T10, D6
    NamedHasEntries = "counts: named slot runs a VM with entries",
    /// T10, D6
    IdleBesideEntries = "counts: named slot idles with entries in the queue",
    /// T5, T10
    AllEight = "counts: all eight above 0",
    /// T10, A8, D14
    EndsWithNone = "counts: Stop of a VM without entries, another has some",
    /// T10, D18
    RestartResting = "counts: Restart of a VM that is not ready, another has entries",
}

/// T10, R2: the refusals that a run from fresh can give while entries stand in the queue.
const REFUSALS: [u8; 7] = [3, 4, 5, 6, 7, 8, 9];

/// What the queue counts of all runs reached.
#[derive(Clone, Debug, Default)]
pub struct CountCoverage {
    steps: [[u64; Step::COUNT]; MAX_VMS],
    clearings: [u64; Clearing::COUNT],
    refused: [u64; REFUSALS.len()],
    marks: [u64; CountMark::COUNT],
}

impl CountCoverage {
    /// Counts what one event shows, by the core before it and after it.
    pub fn observe(&mut self, before: &Core, event: Event, answer: &Answer, after: &Core) {
        if answer.refusal != 0 {
            return self.observe_refused(before, event, answer.refusal);
        }
        self.observe_steps(before, event, after);
        match event {
            Event::Extra { vm } => self.observe_extra(before, vm),
            Event::Call { service: 4, .. } => self.observe_call(before, answer.result),
            Event::Tick { .. } => self.observe_tick(before, after),
            _ => self.observe_removal(before, event, after),
        }
        let all_above_0 = after.state.queue.vm_counts.iter().all(|count| *count > 0);
        self.test(CountMark::AllEight, all_above_0);
    }

    fn test(&mut self, mark: CountMark, condition: bool) {
        self.marks[mark as usize] += u64::from(condition);
    }

    fn observe_refused(&mut self, before: &Core, event: Event, refusal: u8) {
        let queued = before.state.queue.count > 0;
        for (number, reached) in REFUSALS.iter().zip(&mut self.refused) {
            *reached += u64::from(queued && *number == refusal);
        }
        if let (Event::Extra { vm }, 6) = (event, refusal) {
            self.test(CountMark::ExtraFullOwn, count(before, vm) > 0);
        }
    }

    fn observe_steps(&mut self, before: &Core, event: Event, after: &Core) {
        for (vm, steps) in (0..).zip(&mut self.steps) {
            let (was, is) = (count(before, vm), count(after, vm));
            let step = match event {
                _ if was == is => continue,
                Event::Extra { .. } => Step::GrowsAtExtra,
                Event::Call { service: 4, .. } => Step::GrowsAtCall,
                Event::Tick { .. } if is > 0 => Step::FallsBy1,
                Event::Tick { .. } => Step::FallsTo0,
                _ if was > 1 => Step::Cleared,
                _ => continue,
            };
            steps[step as usize] += 1;
            steps[Step::Sixteen as usize] += u64::from(usize::from(is) == MAX_QUEUE);
        }
    }

    fn observe_extra(&mut self, before: &Core, vm: u8) {
        let running = before.state.running;
        self.test(CountMark::ExtraWhileIdle, running.is_none());
        self.test(CountMark::ExtraBesideRunning, running.is_some_and(|running| running != vm));
    }

    fn observe_call(&mut self, before: &Core, result: u8) {
        let own = before.state.running.map_or(0, |vm| count(before, vm));
        self.test(CountMark::CallFullOthers, result == 1 && own == 0 && before.state.queue.count > 0);
    }

    fn observe_tick(&mut self, before: &Core, after: &Core) {
        let (queue, former) = (&before.state.queue, before.state.running);
        let named = after.config.slots[usize::from(after.state.slot)].owner != SPARE;
        let Some(vm) = after.state.running else {
            return self.test(CountMark::IdleBesideEntries, named && queue.count > 0);
        };
        if named {
            return self.test(CountMark::NamedHasEntries, count(before, vm) > 0);
        }
        let another = former.is_some_and(|former| former != vm && count(before, former) > 0);
        self.test(CountMark::FormerHasEntries, another);
        self.test(CountMark::FormerIsServed, former == Some(vm));
        self.test(CountMark::ServedAfterIdle, former.is_none());
        self.test(CountMark::NewestIsAnothers, queue.entries().last() != Some(&vm));
        self.test(CountMark::LastIsServed, queue.count == 1);
    }

    fn observe_removal(&mut self, before: &Core, event: Event, after: &Core) {
        let running = before.state.running;
        let Some(vm) = event.removes_entries_of(running, after.state.running) else {
            return;
        };
        let (was, others_stay) = (count(before, vm), after.state.queue.count > 0);
        if let (Some(clearing), true) = (clearing(event, running == Some(vm)), was > 1 && others_stay) {
            self.clearings[clearing as usize] += 1;
        }
        let (stopped, restarted) =
            (matches!(event, Event::Stop { .. }), matches!(event, Event::Restart { .. }));
        self.test(CountMark::EndsWithNone, stopped && was == 0 && others_stay);
        self.test(CountMark::RestartResting, restarted && !before.is_ready(vm) && others_stay);
    }

    /// Every point that has to be reached, by name, and how often it was.
    pub fn points(&self) -> Vec<(String, u64)> {
        let mut points = Vec::new();
        for (vm, steps) in self.steps.iter().enumerate() {
            for step in Step::ALL {
                points.push((format!("counts: that of VM {vm} {}", step.name()), steps[step as usize]));
            }
        }
        for clearing in Clearing::ALL {
            let name = format!("counts: {} clears 2 or more, others stay", clearing.name());
            points.push((name, self.clearings[clearing as usize]));
        }
        for (refusal, reached) in REFUSALS.iter().zip(self.refused) {
            points.push((format!("counts: refusal {refusal} with entries in the queue"), reached));
        }
        for mark in CountMark::ALL {
            points.push((String::from(mark.name()), self.marks[mark as usize]));
        }
        points
    }
}

/// The stored count of a VM.
fn count(core: &Core, vm: u8) -> u8 {
    core.state.queue.vm_counts[usize::from(vm)]
}

/// The kind of an event that removes entries.
fn clearing(event: Event, of_running: bool) -> Option<Clearing> {
    match event {
        Event::Stop { .. } if of_running => Some(Clearing::StopRunning),
        Event::Stop { .. } => Some(Clearing::StopWaiting),
        Event::Restart { .. } if of_running => Some(Clearing::RestartRunning),
        Event::Restart { .. } => Some(Clearing::RestartWaiting),
        Event::Fault { .. } => Some(Clearing::Fault),
        Event::Call { service: 3, .. } => Some(Clearing::ServiceThree),
        Event::Call { service: 2, .. } => Some(Clearing::BadInject),
        Event::Call { service: 5.., .. } => Some(Clearing::UnknownService),
        Event::Copy(_) => Some(Clearing::FailedCopy),
        _ => None,
    }
}
