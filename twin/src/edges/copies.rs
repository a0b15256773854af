//! The fixed cases about copies (D31 to D37): the vectors, the borders of regions and window, every count,
//! every place of a failure.

use crate::core::config::Config;
use crate::core::event::{CopyRequest, Event, Extent};
use crate::core::flaw::Flaw;
use crate::core::limits::{MAX_EXTENTS, WINDOW_BASE, WINDOW_BYTES};
use crate::core::region::{EXECUTE, READ, READ_WRITE};
use crate::edges::cases::{lone, small, write, TICK};
use crate::edges::regions::region;
use crate::image::write::image_bytes;
use crate::log::write::log_of;
use crate::run::frames::Case;

/// The next address of every copy here, as in P14 to P22.
pub const NEXT: u32 = 0x1010;

const WINDOW_END: u32 = WINDOW_BASE + WINDOW_BYTES as u32;

pub fn extent(source: u32, destination: u32, length: u32) -> Extent {
    Extent { source, destination, length }
}

/// An extent by offsets in the window.
pub fn inside(source: u32, destination: u32, length: u32) -> Extent {
    extent(WINDOW_BASE + source, WINDOW_BASE + destination, length)
}

/// A Copy of these extents.
pub fn copy(extents: &[Extent]) -> Event {
    Event::Copy(CopyRequest::of(NEXT, extents))
}

/// The same with another count.
fn counted(count: u8, extents: &[Extent]) -> Event {
    Event::Copy(CopyRequest { count, ..CopyRequest::of(NEXT, extents) })
}

/// Good extents, none of which changes what another reads.
pub fn good_extents(count: usize) -> Vec<Extent> {
    (0..count as u32).map(|k| inside(k, 0x100 + k, 1)).collect()
}

/// Every edge case of the copies, in a fixed order.
pub fn copy_cases() -> Vec<Case> {
    let mut cases = vec![
        alone(&vectors()),
        alone(&every_count()),
        alone(&every_place_of_a_failure()),
        alone(&failures_together()),
        alone(&ends_of_the_space()),
        refusals(),
        among_others(),
        of_eight_vms(),
    ];
    cases.extend(borders());
    cases
}

/// One VM with all eight regions: those of P14, and others before the window, over its end and at both ends
/// of the space.
pub fn copying_config() -> Config {
    let mut config = lone(4);
    let regions = [
        (READ_WRITE, (0x4000_0000, 0x4000_007f)),
        (READ_WRITE, (0x4000_0080, 0x4000_017f)),
        (READ, (0x4000_0180, 0x4000_01bf)),
        (READ_WRITE, (0x4000_01f0, 0x4000_04ff)),
        (READ_WRITE, (0x3fff_ff00, 0x3fff_ffff)),
        (READ_WRITE, (0x4000_3f00, 0x4000_40ff)),
        (READ_WRITE, (0xffff_ff00, u32::MAX)),
        (READ_WRITE, (0, 0xff)),
    ];
    regions.into_iter().for_each(|(permission, range)| config.push_region(region(0, permission, range)));
    config
}

/// Each of these copies by that VM, which then begins again; it has entries in the queue that a failure takes.
fn alone(copies: &[Event]) -> Case {
    let mut events = vec![Event::Start, TICK];
    for (index, copy) in copies.iter().enumerate() {
        events.extend(vec![Event::Extra { vm: 0 }; index % 4]);
        events.extend([*copy, Event::Restart { vm: 0 }, TICK]);
    }
    Case { image: image_bytes(&copying_config(), Flaw::None), log: log_of(&events) }
}

/// P14 to P22, as far as the window of a log shows them; P19 is among the borders as well.
pub fn vectors() -> Vec<Event> {
    let eight = good_extents(MAX_EXTENTS);
    let mut too_long_at_last = eight.clone();
    too_long_at_last[7].length = 257;
    vec![
        copy(&[inside(0, 0x10, 0x40)]),
        copy(&[inside(0x10, 0, 0x40)]),
        copy(&[inside(0, 0x40, 4), inside(0x40, 0x100, 4)]),
        copy(&[inside(0, 0x80, 256)]),
        copy(&[inside(0, 0x80, 257)]),
        copy(&eight),
        counted(9, &eight),
        counted(0, &[inside(0, 0x180, 4), extent(u32::MAX, 0, 257)]),
        copy(&[extent(u32::MAX, 0, 0)]),
        counted(1, &[inside(0, 0x40, 4), extent(u32::MAX, 0, 257), extent(0, 0, u32::MAX)]),
        copy(&[inside(0x1fc, 0, 8)]),
        copy(&[inside(0, 0x1fc, 8)]),
        copy(&[inside(0x3ffc, 0, 8)]),
        copy(&[inside(0, 0x3ffc, 8)]),
        copy(&[inside(0x70, 0x100, 0x20)]),
        copy(&[inside(0x100, 0x70, 0x20)]),
        copy(&[inside(0, 0x180, 4)]),
        copy(&[inside(0x180, 0, 4)]),
        copy(&too_long_at_last),
        copy(&[inside(0x20, 0x20, 0x40)]),
        copy(&[inside(0, 0x40, 4), inside(8, 0x42, 4), inside(0x40, 0, 8)]),
    ]
}

/// Every count, with good extents and with bad ones.
fn every_count() -> Vec<Event> {
    let good = good_extents(MAX_EXTENTS);
    let bad = [extent(0x9000_0000, 0x9000_0000, 1); MAX_EXTENTS];
    let both = |count: u8| [counted(count, &good), counted(count, &bad)];
    (0..=255).flat_map(|count| both(count).into_iter().take(if count < 16 { 2 } else { 1 })).collect()
}

/// What can be wrong with an extent: its length, its source, its destination, each in several ways.
const BAD: [Extent; 9] = [
    Extent { source: WINDOW_BASE, destination: WINDOW_BASE + 0x40, length: 257 },
    Extent { source: WINDOW_BASE, destination: WINDOW_BASE + 0x40, length: u32::MAX },
    Extent { source: WINDOW_BASE, destination: WINDOW_BASE + 0x40, length: 0x1_0001 },
    Extent { source: WINDOW_BASE + 0x1c0, destination: WINDOW_BASE, length: 2 },
    Extent { source: WINDOW_END - 1, destination: WINDOW_BASE, length: 2 },
    Extent { source: WINDOW_BASE, destination: WINDOW_BASE + 0x180, length: 2 },
    Extent { source: WINDOW_BASE, destination: WINDOW_END - 1, length: 2 },
    Extent { source: 0x9000_0000, destination: 0x9000_1000, length: 2 },
    Extent { source: 0x9000_0000, destination: WINDOW_BASE, length: 300 },
];

/// Each of these at each place, behind good ones; the last extent of the count and extents behind it.
fn every_place_of_a_failure() -> Vec<Event> {
    let mut copies = Vec::new();
    for bad in BAD {
        for place in 0..MAX_EXTENTS {
            let mut extents = good_extents(MAX_EXTENTS);
            extents[place] = bad;
            copies.extend([counted(8, &extents), counted(place as u8 + 1, &extents)]);
            copies.push(counted(place as u8, &extents));
        }
    }
    copies
}

/// Two bad extents, in each order: the first failure counts.
fn failures_together() -> Vec<Event> {
    let pairs = BAD.into_iter().flat_map(|one| BAD.into_iter().map(move |two| [one, two]));
    pairs.map(|[one, two]| copy(&[inside(0, 0x100, 1), one, two])).collect()
}

/// Ranges up to the end of the space and past it, and what a sum that wraps would make of them (D32).
fn ends_of_the_space() -> Vec<Event> {
    let mut copies = Vec::new();
    for address in [0xffff_ff00, 0xffff_ff80, 0xffff_fff0, u32::MAX - 1, u32::MAX] {
        for length in [0, 1, 2, 15, 16, 17, 32, 128, 255, 256, 257] {
            copies.push(copy(&[extent(address, WINDOW_BASE, length)]));
            copies.push(copy(&[extent(WINDOW_BASE, address, length)]));
        }
    }
    copies.extend([0, 1, 0xfe, 0xff].map(|address| copy(&[extent(address, WINDOW_BASE, 1)])));
    copies
}

/// The places about the ends of the regions and of the window, each with short and long ranges, as a source and
/// as a destination.
fn borders() -> Vec<Case> {
    let config = copying_config();
    let ends = config.memory().iter().flat_map(|region| [region.start, region.last.wrapping_add(1)]);
    let mut places: Vec<u32> = ends
        .chain([WINDOW_BASE, WINDOW_END])
        .flat_map(|end| [end.wrapping_sub(256), end.wrapping_sub(2), end.wrapping_sub(1), end])
        .collect();
    places.sort_unstable();
    places.dedup();
    let each = |make: &dyn Fn(u32, u32) -> Extent| -> Case {
        let lengths = [1, 2, 3, 255, 256].into_iter();
        let copies =
            places.iter().flat_map(|place| lengths.clone().map(|length| copy(&[make(*place, length)])));
        alone(&copies.collect::<Vec<_>>())
    };
    vec![
        each(&|place, length| extent(place, WINDOW_BASE + 0x300, length)),
        each(&|place, length| extent(WINDOW_BASE + 0x300, place, length)),
    ]
}

/// Copies before Start, before the first tick, while nobody runs, and by a VM without regions.
fn refusals() -> Case {
    let good = copy(&good_extents(3));
    let bad = counted(9, &[extent(0, 0, 300)]);
    let nothing = counted(0, &[]);
    let mut events = vec![good, bad, Event::Start, good, bad, nothing, TICK];
    events.extend([Event::Stop { vm: 0 }, good, bad, nothing, TICK, good, Event::Restart { vm: 1 }]);
    events.extend([TICK, good, TICK, TICK, nothing, copy(&[extent(u32::MAX, 5, 0)]), bad, good]);
    // A call for service 5 is no copy.
    events.extend([Event::Restart { vm: 0 }, Event::Restart { vm: 1 }, TICK, TICK, TICK]);
    events.extend([Event::Call { service: 5, argument: 0, next: NEXT }, good]);
    Case { image: image_bytes(&small(2, 2), Flaw::None), log: log_of(&events) }
}

/// Three VMs: what one may do another may not; entries of several in the queue; a copy in a spare slot; a
/// number that is pending and enabled, and is not delivered by a copy.
fn among_others() -> Case {
    let mut config = small(3, 16);
    let shared = (0x4000_2000, 0x4000_20ff);
    let regions = [
        region(1, EXECUTE, (0x4000_1000, 0x4000_1fff)),
        region(0, READ_WRITE, (0x4000_0000, 0x4000_0fff)),
        region(1, READ_WRITE, shared),
        region(2, READ, shared),
        region(2, READ_WRITE, (0x4000_2100, 0x4000_21ff)),
    ];
    regions.into_iter().for_each(|region| config.push_region(region));
    let copies = [
        copy(&[inside(0, 0x800, 16)]),
        copy(&[inside(0x2000, 0x2010, 16)]),
        copy(&[inside(0x2000, 0x2100, 16)]),
        copy(&[inside(0x1000, 0x2000, 16)]),
        copy(&[inside(0x20f0, 0x2100, 16)]),
        copy(&[inside(0x20f8, 0x2120, 16)]),
        copy(&[inside(0x2100, 0x20f0, 32)]),
        counted(12, &[]),
    ];
    let mut events = vec![Event::Start];
    for copy in copies {
        events.extend([0, 1, 2, 0, 1, 2].map(|vm| Event::Extra { vm }));
        for _ in 0..4 {
            events.extend([TICK, write(12, 0x80), write(8, 0x80), copy, copy]);
        }
        events.extend([0, 1, 2].map(|vm| Event::Restart { vm }));
    }
    Case { image: image_bytes(&config, Flaw::None), log: log_of(&events) }
}

/// Each of eight VMs fails with two entries of its own in the queue, beside those of others.
fn of_eight_vms() -> Case {
    let mut events = vec![Event::Start, TICK];
    for vm in 0..8 {
        events.extend([vm, 7 - vm, vm].map(|vm| Event::Extra { vm }));
        events.extend([counted(9, &[]), Event::Restart { vm }, Event::Restart { vm: 7 - vm }, TICK]);
    }
    Case { image: image_bytes(&small(8, 16), Flaw::None), log: log_of(&events) }
}
