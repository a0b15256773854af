//! One core: configuration and state together, the fresh core, and the way of every event, with the window
//! that the host lends for it.

use crate::core::config::Config;
use crate::core::event::{Answer, Event, Notice, Outcome};
use crate::core::flaw::Flaw;
use crate::core::limits::MAX_VMS;
use crate::core::state::{Standing, State, Vm};
use crate::core::window::{Window, WindowPlace};

#[derive(Clone, Debug, PartialEq, Eq)]
pub struct Core {
    pub config: Config,
    pub state: State,
    /// Which wrong twin this is; `Flaw::None` for the right one.
    pub flaw: Flaw,
    /// Only for the wrong twin that charges spare ticks: what each VM owes.
    pub(crate) owed: [u16; MAX_VMS],
}

impl Core {
    /// Not started, and every other number zero.
    pub fn fresh(config: Config, flaw: Flaw) -> Core {
        Core { config, state: State::default(), flaw, owed: [0; MAX_VMS] }
    }

    /// Takes one event, with the window that a log is run with (L6). Its bytes do not matter here (D37).
    pub fn apply(&mut self, event: Event) -> Answer {
        self.apply_within(event, WindowPlace::OF_A_LOG)
    }

    /// Takes one event and does to the bytes of the window what it asks for (E14).
    pub fn apply_on(&mut self, event: Event, window: &mut Window) -> Answer {
        let moving = self.extents_to_move(event, window.place());
        let answer = self.apply_within(event, window.place());
        window.take_copies(&moving, self.flaw);
        answer
    }

    /// Takes one event: refuses it and changes nothing, or does it.
    pub fn apply_within(&mut self, event: Event, place: WindowPlace) -> Answer {
        let refusal = self.refusal_of(event);
        if refusal != 0 {
            self.flaw_at_refusal(event, refusal);
            return self.answer(refusal, Outcome::default());
        }
        let found = self.found();
        let outcome = self.perform(event, place);
        self.miscount(event, &found);
        self.answer(0, outcome)
    }

    fn perform(&mut self, event: Event, place: WindowPlace) -> Outcome {
        match event {
            Event::Start => self.start(),
            Event::Tick { address } => self.tick(address),
            Event::Stop { vm } => {
                self.end_vm(vm, Standing::Stopped, Notice { number: 1, vm, code: 0, data: 0 })
            }
            Event::Shutdown { vm } => self.ask_shutdown(vm),
            Event::Restart { vm } => self.restart(vm),
            Event::Extra { vm } => {
                self.state.queue.push(vm);
                Outcome::default()
            }
            Event::Call { service, argument, next } => self.call(service, argument, next),
            Event::Write { offset, value } => self.write(offset, value),
            Event::Fault { code, data } => self.fault(code, data),
            Event::Copy(request) => self.copy(&request, place),
        }
    }

    fn answer(&self, refusal: u8, outcome: Outcome) -> Answer {
        let running = if refusal == 1 { None } else { self.state.running };
        let address = running.map_or(0, |vm| self.vm(vm).address);
        let Outcome { delivered, notice, result, removed } = outcome;
        Answer { refusal, running, address, delivered, notice, result, removed }
    }

    pub(crate) fn vm(&self, vm: u8) -> &Vm {
        &self.state.vms[usize::from(vm)]
    }

    pub(crate) fn vm_mut(&mut self, vm: u8) -> &mut Vm {
        &mut self.state.vms[usize::from(vm)]
    }

    /// Can the queue take one more entry?
    pub fn queue_full(&self) -> bool {
        let more = u8::from(self.flaw == Flaw::QueueTakesOneMore && self.config.queue_size < 16);
        self.state.queue.count >= self.config.queue_size + more
    }

    fn flaw_at_refusal(&mut self, event: Event, refusal: u8) {
        match (self.flaw, refusal, event) {
            (Flaw::RefusedTickAges, 2, Event::Tick { .. }) => self.age_all(),
            (Flaw::RefusedExtraCounts, 6, Event::Extra { vm }) => {
                self.state.queue.vm_counts[usize::from(vm)] += 1;
            }
            _ => {}
        }
    }
}
