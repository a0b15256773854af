//! Event logs for the cases. The maker runs the core beside it, so that most events are accepted.

use crate::core::config::Config;
use crate::core::event::Event;
use crate::core::flaw::Flaw;
use crate::core::state::{ENABLED, PREVIOUS_ENABLED};
use crate::core::Core;
use crate::generate::copies::{any_copy, copy_request, Room};
use crate::generate::random::Random;
use crate::generate::values::{address, any_event, argument, mask, write_offset};
use crate::log::write::write_record;

/// What a log is mostly about: how likely each kind of step is.
#[derive(Clone, Copy, Debug)]
pub struct Mood {
    tick: usize,
    call: usize,
    write: usize,
    fault: usize,
    master: usize,
    extra: usize,
    odd: usize,
    burst: usize,
    copy: usize,
}

const MOODS: [Mood; 6] = [
    Mood { tick: 50, call: 20, write: 12, fault: 1, master: 5, extra: 5, odd: 3, burst: 4, copy: 8 },
    Mood { tick: 25, call: 35, write: 30, fault: 0, master: 3, extra: 2, odd: 1, burst: 4, copy: 6 },
    Mood { tick: 40, call: 10, write: 3, fault: 2, master: 10, extra: 30, odd: 3, burst: 2, copy: 6 },
    Mood { tick: 35, call: 10, write: 5, fault: 5, master: 35, extra: 8, odd: 5, burst: 2, copy: 5 },
    Mood { tick: 15, call: 10, write: 10, fault: 3, master: 10, extra: 5, odd: 40, burst: 7, copy: 10 },
    Mood { tick: 30, call: 8, write: 8, fault: 1, master: 5, extra: 10, odd: 4, burst: 4, copy: 45 },
];

/// Nearly only ticks, for long runs.
const TICKING: Mood =
    Mood { tick: 940, call: 20, write: 15, fault: 1, master: 6, extra: 15, odd: 2, burst: 1, copy: 2 };

/// Mostly copies, for runs whose memory is looked at.
const COPYING: Mood =
    Mood { tick: 18, call: 3, write: 2, fault: 1, master: 2, extra: 3, odd: 3, burst: 2, copy: 66 };

/// So many percent of the copies by a VM that has no room for any are made nevertheless.
const COPIES_WITHOUT_ROOM: usize = 12;

/// A log under construction and the state after it.
pub struct LogMaker<'a> {
    random: &'a mut Random,
    mood: Mood,
    core: Core,
    log: Vec<u8>,
}

impl<'a> LogMaker<'a> {
    pub fn new(random: &'a mut Random, config: &Config) -> LogMaker<'a> {
        let mood = MOODS[random.below(MOODS.len())];
        LogMaker { random, mood, core: Core::fresh(config.clone(), Flaw::None), log: Vec::new() }
    }

    /// The maker of a log that is mostly copies.
    pub fn copying(random: &'a mut Random, config: &Config) -> LogMaker<'a> {
        LogMaker { mood: COPYING, ..LogMaker::new(random, config) }
    }

    /// A log of so many steps; a burst of several events counts as one.
    pub fn events(mut self, count: usize) -> Vec<u8> {
        for _ in 0..count {
            self.step();
        }
        self.log
    }

    /// The maker of a log that is mostly ticks.
    pub fn ticking(random: &'a mut Random, config: &Config) -> LogMaker<'a> {
        LogMaker { mood: TICKING, ..LogMaker::new(random, config) }
    }

    /// A log of exactly so many bytes; the last of them are ticks.
    pub fn bytes(mut self, length: usize) -> Vec<u8> {
        while self.log.len() + 2_000 < length {
            self.step();
        }
        while self.log.len() + 5 <= length {
            self.tick();
        }
        while self.log.len() + 2 <= length {
            self.push(Event::Extra { vm: 0 });
        }
        while self.log.len() < length {
            self.push(Event::Start);
        }
        self.log
    }

    fn push(&mut self, event: Event) {
        self.core.apply(event);
        write_record(event, &mut self.log);
    }

    fn step(&mut self) {
        if !self.core.state.started {
            let event = if self.random.percent(85) { Event::Start } else { any_event(self.random) };
            return self.push(event);
        }
        let resting = self.resting();
        if !resting.is_empty() && self.random.percent(4 + 4 * resting.len()) {
            let vm = self.random.pick(&resting);
            return self.push(Event::Restart { vm });
        }
        let mood = self.mood;
        let weights = [
            mood.tick,
            mood.call,
            mood.write,
            mood.fault,
            mood.master,
            mood.extra,
            mood.odd,
            mood.burst,
            mood.copy,
        ];
        let running = self.core.state.running.is_some();
        match self.random.weighted(&weights) {
            1 if running => self.call(),
            2 if running => self.write(),
            3 if running => self.fault(),
            4 => self.master(),
            5 => self.extra(),
            6 => {
                let event = any_event(self.random);
                self.push(event);
            }
            7 => self.burst(),
            8 if running => self.copy(),
            _ => self.tick(),
        }
    }

    /// The VMs that are not ready.
    fn resting(&self) -> Vec<u8> {
        (0..self.core.config.vm_count).filter(|vm| !self.core.is_ready(*vm)).collect()
    }

    /// A field of the running VM.
    fn own_field(&self, field: usize) -> u32 {
        self.core.state.running.map_or(0, |vm| self.core.vm(vm).fields[field])
    }

    fn tick(&mut self) {
        let address = address(self.random);
        self.push(Event::Tick { address });
    }

    /// A call; in a handler mostly the return from it.
    fn call(&mut self) {
        let in_handler = self.own_field(ENABLED) == 0 && self.own_field(PREVIOUS_ENABLED) != 0;
        let weights = if in_handler { [15, 60, 10, 1, 12, 2] } else { [28, 14, 30, 3, 22, 3] };
        let service = match self.random.weighted(&weights) {
            5 => self.random.byte(),
            service => service as u8,
        };
        let argument = argument(self.random, service);
        let next = address(self.random);
        self.push(Event::Call { service, argument, next });
    }

    /// A write; mostly it enables something where nothing is enabled.
    fn write(&mut self) {
        let deaf = self.own_field(ENABLED) == 0 && self.random.percent(50);
        let offset = if deaf { 8 } else { write_offset(self.random) };
        let value = mask(self.random);
        self.push(Event::Write { offset, value });
    }

    fn fault(&mut self) {
        let code = self.random.pick(&[3, 4, 5]);
        let data = address(self.random);
        self.push(Event::Fault { code, data });
    }

    /// A copy by the VM that runs; without room for any mostly a tick in its place.
    fn copy(&mut self) {
        let room = self.core.state.running.map(|vm| Room::of(&self.core.config, vm));
        let request = match room {
            Some(room) if room.is_there() => copy_request(self.random, &room),
            _ if self.random.percent(COPIES_WITHOUT_ROOM) => any_copy(self.random),
            _ => return self.tick(),
        };
        self.push(Event::Copy(request));
    }

    fn vm(&mut self) -> u8 {
        self.random.below(usize::from(self.core.config.vm_count)) as u8
    }

    /// Stop or Shutdown for a ready VM, Restart for one that is not, and sometimes for one that is.
    fn master(&mut self) {
        let vm = self.vm();
        let ready = self.core.is_ready(vm);
        let event = match self.random.below(10) {
            0..=4 if ready => Event::Shutdown { vm },
            5..=6 if ready => Event::Stop { vm },
            _ => Event::Restart { vm },
        };
        self.push(event);
    }

    fn extra(&mut self) {
        let vm = self.vm();
        let ready = self.core.is_ready(vm);
        if ready && (!self.core.queue_full() || self.random.percent(10)) {
            self.push(Event::Extra { vm });
        } else {
            self.tick();
        }
    }

    /// A short row of events that belong together.
    fn burst(&mut self) {
        match self.random.below(10) {
            0 => self.fill_the_queue(),
            1 => self.raise_and_sync(),
            2 => self.generate_and_return(),
            3 => self.stop_everybody(),
            4 => self.whole_cycle(),
            5 => self.bend_the_clocks(),
            6 => self.inject_among_others(),
            7 => self.fill_with_one_vm(),
            8 => self.copy_in_a_row(),
            _ => self.restart_the_rest(),
        }
    }

    fn fill_the_queue(&mut self) {
        let size = self.core.config.queue_size;
        for _ in 0..=size.saturating_sub(self.core.state.queue.count) {
            let vm = self.vm();
            self.push(Event::Extra { vm });
        }
        let next = address(self.random);
        self.push(Event::Call { service: 4, argument: 0, next });
    }

    /// One VM takes all places that are left, so that its queue count goes far (T10), and asks once more.
    fn fill_with_one_vm(&mut self) {
        let vm = self.vm();
        let size = self.core.config.queue_size;
        for _ in 0..=size.saturating_sub(self.core.state.queue.count) {
            self.push(Event::Extra { vm });
        }
    }

    /// Several copies by one VM, as long as none of them ends it.
    fn copy_in_a_row(&mut self) {
        for _ in 0..self.random.between(2, 5) {
            if self.core.state.running.is_some() {
                self.copy();
            }
        }
    }

    fn raise_and_sync(&mut self) {
        let number = self.random.below(32) as u32;
        let (next, more) = (address(self.random), mask(self.random));
        self.push(Event::Write { offset: 12, value: 1 << number });
        self.push(Event::Write { offset: 8, value: 1 << number | more });
        self.push(Event::Call { service: 0, argument: 0, next });
        self.push(Event::Call { service: 1, argument: 0, next: next.wrapping_add(4) });
    }

    /// A number injected while others are pending, so that another one is often delivered (D27).
    fn inject_among_others(&mut self) {
        let number = self.random.below(32) as u32;
        let own = u32::from(self.random.percent(70)) << number;
        let (next, enabled, pending) = (address(self.random), mask(self.random), mask(self.random));
        self.push(Event::Write { offset: 8, value: own | enabled });
        self.push(Event::Write { offset: 12, value: pending });
        self.push(Event::Call { service: 2, argument: number, next });
        self.push(Event::Call { service: 1, argument: 0, next: next.wrapping_add(4) });
    }

    fn generate_and_return(&mut self) {
        let (enabled, generated) = (mask(self.random), mask(self.random));
        self.push(Event::Write { offset: 8, value: enabled });
        self.push(Event::Write { offset: 32, value: generated });
        for _ in 0..self.random.between(1, 4) {
            self.tick();
            if self.core.state.running.is_some() {
                self.push(Event::Call { service: 1, argument: 0, next: 0 });
            }
        }
    }

    fn stop_everybody(&mut self) {
        for vm in 0..self.core.config.vm_count {
            self.push(Event::Stop { vm });
        }
        self.tick();
    }

    fn whole_cycle(&mut self) {
        let ticks: usize = self.core.config.table().iter().map(|slot| usize::from(slot.ticks)).sum();
        for _ in 0..=ticks.min(60) {
            self.tick();
        }
    }

    fn bend_the_clocks(&mut self) {
        for offset in [0, 4, 36] {
            let value = self.random.pick(&[0, 1, 0x7fff_ffff, u32::MAX]);
            self.push(Event::Write { offset, value });
        }
        self.tick();
    }

    fn restart_the_rest(&mut self) {
        for vm in self.resting() {
            self.push(Event::Restart { vm });
        }
    }
}
