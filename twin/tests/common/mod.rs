//! What several tests share: the worked example, small configurations, the vectors of copies, and the command
//! line.
#![allow(dead_code)]

use std::fs;
use std::path::{Path, PathBuf};
use std::process::Command;

use twin::core::config::{Config, Slot, VmPlace, SPARE};
use twin::core::event::{CopyRequest, Event, Extent};
use twin::core::flaw::Flaw;
use twin::core::limits::{MAX_LOG_BYTES, MAX_VMS};
use twin::core::region::Region;
use twin::core::state::Queue;
use twin::core::Core;
use twin::image::read::read_image;
use twin::image::write::image_bytes;
use twin::log::read::{read_record, Record};
use twin::log::write::log_of;
use twin::run::frames::Case;

/// Two VMs, queue of one; VM 0 for two ticks, VM 1 for one, a spare tick.
pub fn worked_config() -> Config {
    let mut config = Config::zero();
    (config.vm_count, config.queue_size, config.slot_count) = (2, 1, 3);
    config.vms[0] = VmPlace { entry: 0x1000, handler: 0x1004 };
    config.vms[1] = VmPlace { entry: 0x2000, handler: 0x2004 };
    config.slots[0] = Slot { owner: 0, ticks: 2 };
    config.slots[1] = Slot { owner: 1, ticks: 1 };
    config.slots[2] = Slot { owner: SPARE, ticks: 1 };
    config
}

/// The worked configuration with another queue size.
pub fn with_queue(size: u8) -> Config {
    let mut config = worked_config();
    config.queue_size = size;
    config
}

pub fn region(holder: u8, permission: u8, start: u32, last: u32) -> Region {
    Region { holder, permission, start, last }
}

/// The worked configuration with these regions, legal or not.
pub fn with_regions(regions: &[Region]) -> Config {
    let mut config = worked_config();
    regions.iter().for_each(|region| config.push_region(*region));
    config
}

pub fn call(service: u8, argument: u32, next: u32) -> Event {
    Event::Call { service, argument, next }
}

pub fn write(offset: u8, value: u32) -> Event {
    Event::Write { offset, value }
}

pub fn tick(address: u32) -> Event {
    Event::Tick { address }
}

/// The seven kinds of events that remove entries, for a VM 0 that runs.
pub const REMOVING: [Event; 7] = [
    Event::Stop { vm: 0 },
    Event::Restart { vm: 0 },
    Event::Fault { code: 3, data: 0 },
    Event::Call { service: 3, argument: 0, next: 0x1020 },
    Event::Call { service: 2, argument: 32, next: 0x1020 },
    Event::Call { service: 5, argument: 0, next: 0x1020 },
    Event::Copy(CopyRequest { count: 9, next: 0x1020, extents: [NO_EXTENT; 8] }),
];

const NO_EXTENT: Extent = Extent { source: 0, destination: 0, length: 0 };

pub fn extent(source: u32, destination: u32, length: u32) -> Extent {
    Extent { source, destination, length }
}

/// A Copy of these extents, whose next address is that of P14 to P22.
pub fn copy(extents: &[Extent]) -> Event {
    Event::Copy(CopyRequest::of(0x1010, extents))
}

/// The same with another count.
pub fn counted_copy(count: u8, extents: &[Extent]) -> Event {
    Event::Copy(CopyRequest { count, ..CopyRequest::of(0x1010, extents) })
}

/// The configuration of P14 to P22.
pub fn p14_config() -> Config {
    with_regions(&[
        region(0, 2, 0x4000_0000, 0x4000_007f),
        region(0, 2, 0x4000_0080, 0x4000_017f),
        region(0, 1, 0x4000_0180, 0x4000_01bf),
        region(0, 2, 0x4000_01f0, 0x4000_04ff),
    ])
}

/// The core that P12 and P13 begin with, as right or as wrong as asked for.
pub fn p12_core(flaw: Flaw) -> Core {
    let mut core = Core::fresh(with_queue(4), flaw);
    let before = [Event::Start, tick(0), Event::Extra { vm: 0 }, Event::Extra { vm: 1 }, call(4, 0, 0x1010)];
    for event in before {
        let answer = core.apply(event);
        assert_eq!((answer.refusal, answer.removed), (0, 0), "{event:?}");
    }
    assert_eq!(core.state.queue.entries(), [0, 1, 0]);
    core
}

/// An event of each of the ten kinds, for VM 0 or the VM that runs.
pub fn every_kind() -> [Event; 10] {
    let vm = 0;
    let (stop, shutdown) = (Event::Stop { vm }, Event::Shutdown { vm });
    let (restart, extra) = (Event::Restart { vm }, Event::Extra { vm });
    let fault = Event::Fault { code: 3, data: 0 };
    [Event::Start, tick(5), stop, shutdown, restart, extra, call(0, 0, 0), write(8, 1), fault, copy(&[])]
}

/// How many entries each VM has, counted place by place.
pub fn counted(queue: &Queue) -> [u8; MAX_VMS] {
    let mut counts = [0; MAX_VMS];
    for place in 0..usize::from(queue.count) {
        counts[usize::from(queue.places[place])] += 1;
    }
    counts
}

pub fn events_of(log: &[u8]) -> Vec<Event> {
    let (mut events, mut at) = (Vec::new(), 0);
    while let Record::Event(event, next) = read_record(log, at) {
        events.push(event);
        at = next;
    }
    events
}

/// A fresh core, where the log is run at all.
pub fn runnable(image: &[u8], log: &[u8], flaw: Flaw) -> Option<Core> {
    let config = read_image(image, flaw).ok().filter(|_| log.len() <= MAX_LOG_BYTES)?;
    Some(Core::fresh(config, flaw))
}

/// How many lines an event has where its state is printed: its own, the notice, the core, the queue, the
/// counts and the eight VM records.
pub const STATE_LINES: usize = 13;

pub fn worked_events() -> Vec<Event> {
    vec![
        Event::Start,
        tick(0),
        write(8, 0x88),
        write(32, 0x80),
        tick(0x1010),
        call(1, 0, 0x1040),
        call(4, 0, 0x1014),
        call(4, 0, 0x1018),
        tick(0x1020),
        tick(0x2008),
        Event::Stop { vm: 2 },
        Event::Stop { vm: 0 },
        tick(0),
    ]
}

pub fn worked_case() -> Case {
    Case { image: image_bytes(&worked_config(), Flaw::None), log: log_of(&worked_events()) }
}

pub fn worked_lines() -> &'static str {
    "1 0 - - - 0 0 0\n\
     2 0 0 00001000 - 0 0 0\n\
     3 0 0 00001000 - 0 0 0\n\
     4 0 0 00001000 - 0 0 0\n\
     5 0 0 00001004 7 0 0 0\n\
     6 0 0 00001010 - 0 0 0\n\
     7 0 0 00001014 - 0 0 0\n\
     8 0 0 00001018 - 0 1 0\n\
     9 0 1 00002000 - 0 0 0\n\
     10 0 0 00001004 7 0 0 0\n\
     11 3 0 00001004 - 0 0 0\n\
     12 0 - - - 1 0 0\n\
     13 0 - - - 0 0 0\n"
}

/// A core of the worked configuration after some events, all of which must be done.
pub fn core_with(events: &[Event]) -> Core {
    core_of(worked_config(), events)
}

pub fn core_of(config: Config, events: &[Event]) -> Core {
    let mut core = Core::fresh(config, Flaw::None);
    for event in events {
        assert_eq!(core.apply(*event).refusal, 0, "{event:?}");
    }
    core
}

/// Exit status, standard output, standard error.
pub fn twin(arguments: &[&str]) -> (Option<i32>, String, String) {
    let output = Command::new(env!("CARGO_BIN_EXE_twin")).args(arguments).output().expect("the twin starts");
    let text = |bytes| String::from_utf8(bytes).expect("a text");
    (output.status.code(), text(output.stdout), text(output.stderr))
}

/// An empty folder of its own for a test.
pub fn folder(name: &str) -> PathBuf {
    let path = PathBuf::from(env!("CARGO_TARGET_TMPDIR")).join(name);
    let _ = fs::remove_dir_all(&path);
    fs::create_dir_all(&path).expect("a folder can be made");
    path
}

pub fn shown(path: &Path) -> &str {
    path.to_str().expect("a plain path")
}
