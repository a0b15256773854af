//! The fixed first cases of every comparison: they reach each listed point by themselves.

use crate::core::config::{Config, Slot, VmPlace, SPARE};
use crate::core::event::Event;
use crate::core::flaw::Flaw;
use crate::core::limits::{MAX_LOG_BYTES, MAX_QUEUE, MAX_SLOTS, MAX_VMS};
use crate::edges::copies::copy_cases;
use crate::edges::counts::{counts_cleared, counts_of_one_vm, counts_up_and_down};
use crate::edges::regions::{longest_config, region_cases};
use crate::edges::removals::{removals, removals_of_none};
use crate::generate::image::{config_of, faulty_image, legal_config, FAULTS};
use crate::generate::log::LogMaker;
use crate::generate::random::Random;
use crate::image::read::{KIND_CORE, KIND_END, KIND_SLOT, KIND_VM};
use crate::image::write::image_bytes;
use crate::log::read::{event_body_length, EVENT_KINDS, KIND_START};
use crate::log::write::log_of;
use crate::run::frames::{Case, MAX_PART};

pub const TICK: Event = Event::Tick { address: 0x1010 };

/// Every edge case, in a fixed order.
pub fn edge_cases(random: &mut Random) -> Vec<Case> {
    let mut cases = vec![
        scripted(&small(1, 0), &every_number()),
        scripted(&small(1, 2), &every_offset()),
        scripted(&small(2, 1), &every_refusal()),
    ];
    cases.extend(region_cases());
    cases.extend([
        scripted(&lone(1), &every_service()),
        scripted(&small(2, 3), &arguments()),
        scripted(&lone(0), &injections()),
        scripted(&small(2, 0), &queue_edges(2)),
        scripted(&small(8, 16), &queue_edges(8)),
        scripted(&small(3, 4), &standings()),
        scripted(&small(2, 16), &removals()),
        scripted(&small(2, 4), &removals_of_none()),
        scripted(&small(8, 16), &counts_up_and_down()),
        scripted(&small(8, 16), &counts_of_one_vm()),
        scripted(&small(8, 16), &counts_cleared()),
        scripted(&small(2, 2), &[]),
        Case { image: Vec::new(), log: log_of(&[Event::Start]) },
        Case::default(),
        scripted(&wide(), &wide_slots()),
        one_slot_only(random),
    ]);
    cases.extend(FAULTS.into_iter().flat_map(|fault| [fault; 6]).map(|fault| refused(random, fault)));
    cases.extend(full_images(random));
    cases.extend(image_edges());
    cases.extend(copy_cases());
    cases.extend(cut_logs());
    cases.extend([long_slot(), many_ticks()]);
    cases.extend(long_logs(random));
    cases
}

fn scripted(config: &Config, events: &[Event]) -> Case {
    Case { image: image_bytes(config, Flaw::None), log: log_of(events) }
}

/// A table of one tick for each VM and a spare tick behind them.
pub fn small(vm_count: u8, queue_size: u8) -> Config {
    let mut config = Config::zero();
    (config.vm_count, config.queue_size, config.slot_count) = (vm_count, queue_size, vm_count + 1);
    for vm in 0..vm_count {
        let entry = 0x1000 * (u32::from(vm) + 1);
        config.vms[usize::from(vm)] = VmPlace { entry, handler: entry + 4 };
        config.slots[usize::from(vm)] = Slot { owner: vm, ticks: 1 };
    }
    config.slots[usize::from(vm_count)] = Slot { owner: SPARE, ticks: 1 };
    config
}

/// Two VMs with three ticks each, and a spare tick between them.
fn wide() -> Config {
    let mut config = small(2, 4);
    config.slot_count = 4;
    let spare = Slot { owner: SPARE, ticks: 1 };
    config.slots[..4].copy_from_slice(&[
        Slot { owner: 0, ticks: 3 },
        spare,
        Slot { owner: 1, ticks: 3 },
        spare,
    ]);
    config
}

/// Extra time beside slots of several ticks, and a stop and a restart in the midst of them.
fn wide_slots() -> Vec<Event> {
    let mut events = vec![Event::Start, TICK, call(4, 0), Event::Extra { vm: 1 }, call(4, 0)];
    events.extend([TICK; 8]);
    events.extend([Event::Restart { vm: 0 }, TICK, Event::Stop { vm: 0 }, TICK, Event::Restart { vm: 0 }]);
    events.extend([TICK; 12]);
    events
}

/// One VM, and a table that is all its own.
pub fn lone(queue_size: u8) -> Config {
    let mut config = small(1, queue_size);
    config.slot_count = 1;
    config.slots[1] = Slot::default();
    config
}

pub fn call(service: u8, argument: u32) -> Event {
    Event::Call { service, argument, next: 0x2000 + 4 * (argument & 0xff) + 0x400 * u32::from(service) }
}

pub fn write(offset: u8, value: u32) -> Event {
    Event::Write { offset, value }
}

/// Numbers 0 to 31, each delivered at an inject, at a return, at a sync and at a tick (D13).
fn every_number() -> Vec<Event> {
    let mut events = vec![Event::Start, TICK];
    for number in 0..32 {
        events.extend([write(8, 1 << number), call(2, number)]);
        events.extend([write(24, 1 << number), call(2, number), call(1, 0)]);
        events.extend([write(12, 1 << number), write(8, 1 << number), call(0, 0)]);
        events.extend([write(8, 1 << number), write(32, 1 << number), TICK, TICK]);
        events.extend([write(12, u32::MAX), write(8, (2u32 << number).wrapping_sub(1)), call(0, 0)]);
        events.extend([write(12, 0), write(32, 0)]);
    }
    events
}

fn every_offset() -> Vec<Event> {
    let mut events = vec![Event::Start, TICK];
    events.extend((0..=255).map(|offset| write(offset, 0x0101_0101 * u32::from(offset))));
    events.extend([TICK, TICK, TICK, TICK]);
    events
}

/// Every event kind with every refusal that it can get from fresh.
fn every_refusal() -> Vec<Event> {
    let guest = [call(0, 0), write(8, 1), write(37, 1), Event::Fault { code: 3, data: 0 }];
    let mut events = vec![TICK];
    events.extend(guest);
    events.extend(master(0));
    events.extend([Event::Start, Event::Start]);
    events.extend(guest);
    events.push(Event::Fault { code: 9, data: 0 });
    for vm in [2, 7, 8, 255] {
        events.extend(master(vm));
    }
    events.extend([Event::Extra { vm: 0 }, Event::Extra { vm: 0 }, Event::Stop { vm: 1 }]);
    events.extend(master(1).into_iter().filter(|event| *event != Event::Restart { vm: 1 }));
    events.push(TICK);
    events.extend([0, 1, 2, 6, 255].map(|code| Event::Fault { code, data: 7 }));
    events.extend([1, 2, 3, 37, 38, 39, 40, 255].map(|offset| write(offset, 7)));
    events.extend([Event::Fault { code: 4, data: 7 }, call(4, 0), TICK, TICK]);
    events
}

fn master(vm: u8) -> [Event; 4] {
    [Event::Stop { vm }, Event::Shutdown { vm }, Event::Restart { vm }, Event::Extra { vm }]
}

fn every_service() -> Vec<Event> {
    let mut events = vec![Event::Start];
    for service in 0..=255 {
        events.extend([TICK, write(8, 0xff), call(service, 3), call(0, 0), Event::Restart { vm: 0 }]);
    }
    events
}

fn arguments() -> Vec<Event> {
    let mut events = vec![Event::Start];
    let numbers = [0, 30, 31, 32, 33, 63, 64, 0x100, 0x1_0003, 0x8000_0000, 0xffff_ffe0, u32::MAX];
    for argument in numbers {
        events.extend([TICK, call(2, argument), write(8, u32::MAX), call(0, 0), TICK]);
        events.extend([call(2, argument), Event::Restart { vm: 0 }, Event::Restart { vm: 1 }, TICK]);
    }
    events
}

/// Service 2 as in P9 and P10; then every number delivered by it, whichever one is injected (D27).
fn injections() -> Vec<Event> {
    let inject = |argument| Event::Call { service: 2, argument, next: 0x1030 };
    let mut events = vec![Event::Start, TICK, write(8, 0x08), inject(3)];
    events.extend([write(8, 0x88), write(12, 0x80), inject(3), inject(31)]);
    events.extend([write(8, u32::MAX), inject(32), Event::Restart { vm: 0 }, TICK]);
    for number in 0..32 {
        let up_to_it = (2u32 << number).wrapping_sub(1);
        for argument in [0, number, 31] {
            events.extend([write(8, up_to_it), write(12, !(1 << argument)), inject(argument)]);
        }
    }
    events
}

/// Fills the queue past its size in both ways, then uses and loses entries.
fn queue_edges(vms: u8) -> Vec<Event> {
    let mut events = vec![Event::Start, TICK, write(8, u32::MAX), write(32, 0x88)];
    for round in 0..=16 {
        events.push(Event::Extra { vm: round % vms });
    }
    events.extend([call(4, 0), call(4, 0)]);
    events.extend(vec![TICK; usize::from(vms) + 1]);
    events.extend([call(4, 0), call(4, 0), Event::Stop { vm: 0 }, Event::Restart { vm: vms - 1 }, TICK]);
    events.extend([Event::Extra { vm: vms - 1 }, Event::Extra { vm: vms - 1 }, Event::Restart { vm: 0 }]);
    events.extend(vec![TICK; 3 * (usize::from(vms) + 1) + 1]);
    events
}

/// Every way out of ready and back, for a running VM and for one that waits.
fn standings() -> Vec<Event> {
    let mut events = vec![Event::Start, Event::Restart { vm: 1 }, TICK];
    let ends =
        [Event::Stop { vm: 0 }, call(3, 0), Event::Fault { code: 5, data: 1 }, call(2, 99), call(77, 0)];
    for end in ends {
        events.extend([call(4, 0), Event::Extra { vm: 1 }, end, Event::Stop { vm: 0 }, TICK, TICK, TICK]);
        events.extend([Event::Restart { vm: 0 }, TICK, TICK, write(8, 0x900), Event::Restart { vm: 0 }]);
        events.extend([write(8, 0xfff), Event::Shutdown { vm: 0 }, write(36, 500), TICK, TICK, TICK, TICK]);
        events.extend([Event::Stop { vm: 1 }, Event::Restart { vm: 1 }]);
    }
    events.extend([0, 1, 2].map(|vm| Event::Stop { vm }));
    events.extend([TICK; 5]);
    events
}

/// A slot of 1,000 ticks, run through to the next and round again.
fn long_slot() -> Case {
    let mut config = small(2, 1);
    config.slots[0].ticks = 1_000;
    let mut events = vec![Event::Start];
    events.extend([TICK; 2_010]);
    scripted(&config, &events)
}

/// As many ticks as a log can hold, all of them run by one VM.
fn many_ticks() -> Case {
    let mut events = vec![Event::Start];
    events.extend(vec![TICK; (MAX_LOG_BYTES - 1) / 5]);
    scripted(&lone(0), &events)
}

fn one_slot_only(random: &mut Random) -> Case {
    let config = config_of(random, 1, 1, 1);
    let log = LogMaker::new(random, &config).events(60);
    Case { image: image_bytes(&config, Flaw::None), log }
}

/// Logs about the greatest length, and one whose last record is cut there.
fn long_logs(random: &mut Random) -> Vec<Case> {
    let config = small(2, 3);
    let image = image_bytes(&config, Flaw::None);
    let lengths = [MAX_LOG_BYTES, MAX_LOG_BYTES + 1, MAX_PART];
    let mut cases: Vec<Case> = lengths
        .into_iter()
        .map(|length| Case { image: image.clone(), log: LogMaker::ticking(random, &config).bytes(length) })
        .collect();
    let mut log = LogMaker::ticking(random, &config).bytes(MAX_LOG_BYTES - 3);
    log.extend([0x11, 0, 0]);
    cases.push(Case { image: image.clone(), log });
    cases.push(Case { image: image[..image.len() - 1].to_vec(), log: vec![0x10; MAX_LOG_BYTES + 1] });
    cases
}

fn refused(random: &mut Random, fault: u8) -> Case {
    let log = LogMaker::new(random, &small(1, 1)).events(5);
    Case { image: faulty_image(random, fault), log }
}

/// The longest image, run through its whole table; the longest without regions; and the same with bytes
/// behind them.
fn full_images(random: &mut Random) -> Vec<Case> {
    let without = config_of(random, MAX_VMS, MAX_QUEUE, MAX_SLOTS);
    let mut cases = Vec::new();
    for config in [longest_config(), without] {
        let image = image_bytes(&config, Flaw::None);
        let log = LogMaker::new(random, &config).events(300);
        let longer = [image.clone(), vec![0; 70]].concat();
        let one_more = [&image[..image.len() - 1], &[KIND_SLOT, 200, 0, 0, KIND_END]].concat();
        let longest = [image.clone(), vec![4; MAX_PART - image.len()]].concat();
        cases.extend([
            Case { image, log },
            Case { image: longer, log: vec![KIND_START] },
            Case { image: longest, log: Vec::new() },
            Case { image: one_more, log: Vec::new() },
        ]);
    }
    cases
}

/// Images at the edges of the sizes, each changed by one step outward.
fn image_edges() -> Vec<Case> {
    let base = image_bytes(&small(1, 16), Flaw::None);
    let changed = |at: usize, value: u8| {
        let mut image = base.clone();
        image[at] = value;
        Case { image, log: log_of(&[Event::Start, TICK]) }
    };
    let mut longest_slot = changed(14, 0xe8);
    longest_slot.image[15] = 3;
    let mut too_long = longest_slot.clone();
    too_long.image[14] = 0xe9;
    let cut = |tail: &[u8]| Case { image: [&base[..12], tail].concat(), log: Vec::new() };
    let mut of_nobody = changed(13, 1);
    of_nobody.image[14] = 0;
    vec![
        of_nobody,
        changed(12, KIND_CORE),
        cut(&[KIND_VM, 0, 0]),
        cut(&[KIND_END]),
        cut(&[KIND_END, KIND_END]),
        cut(&[KIND_SLOT, 255, 1, 0, KIND_END]),
        changed(1, 0),
        changed(1, 9),
        changed(2, 17),
        changed(13, 1),
        changed(14, 0),
        changed(18, 0),
        changed(18, 2),
        changed(20, 5),
        changed(20, 6),
        longest_slot,
        too_long,
    ]
}

fn cut_logs() -> Vec<Case> {
    let image = image_bytes(&small(1, 1), Flaw::None);
    let with_tail = |tail: Vec<u8>| {
        let log = [log_of(&[Event::Start, TICK]), tail].concat();
        Case { image: image.clone(), log }
    };
    cut_tails().into_iter().map(with_tail).collect()
}

/// What cannot be read: every event kind with every length of body that is too short, but of the long record of
/// a Copy only those about the ends of its parts (E13), and unknown kinds.
pub fn cut_tails() -> Vec<Vec<u8>> {
    let mut tails = Vec::new();
    for kind in EVENT_KINDS {
        let whole = event_body_length(kind).unwrap_or(0);
        let tried = |length: &usize| *length < 10 || [0, 11].contains(&((length - 5) % 12));
        for length in (0..whole).filter(tried) {
            let mut tail = vec![kind];
            tail.extend(vec![3; length]);
            tails.push(tail);
        }
    }
    for kind in [0x00, 0x0f, 0x19, 0x1b, 0x1c, 0x80, 0xff] {
        tails.push(vec![kind, 0x10, 0x10, 0x10, 0x10, 0x10]);
        tails.push(vec![kind]);
    }
    // As long as the record of a Copy, whose kind is the next but one (E13).
    tails.push([&[0x19][..], &[0; 101]].concat());
    tails
}

/// A case with a configuration of its own and a log that fits it.
pub fn ordinary_case(random: &mut Random, steps: usize) -> Case {
    let config = legal_config(random);
    let log = LogMaker::new(random, &config).events(steps);
    Case { image: image_bytes(&config, Flaw::None), log }
}
