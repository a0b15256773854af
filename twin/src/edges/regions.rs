//! The fixed cases about memory regions: every fault, the order of the faults, the edges of what is allowed.

use crate::core::config::{Config, Slot, SPARE};
use crate::core::event::Event;
use crate::core::flaw::Flaw;
use crate::core::limits::{MAX_REGIONS_OF_A_VM, MAX_SLOTS, MAX_VMS};
use crate::core::region::{Region, EXECUTE, READ, READ_WRITE};
use crate::edges::cases::{small, TICK};
use crate::generate::regions::slots_at;
use crate::image::read::{KIND_CORE, KIND_END, KIND_REGION, KIND_SLOT, KIND_VM};
use crate::image::write::{image_bytes, region_record};
use crate::log::write::log_of;
use crate::run::frames::Case;

/// The first region of a pair; those of PAIR_RANGES are held against it.
const EARLIER: (u32, u32) = (0x2000, 0x2fff);

/// The same range, ranges that share one byte, ranges that adjoin, ranges that have one end in common, ranges
/// inside and around, a range behind a gap of one byte (H6).
const PAIR_RANGES: [(u32, u32); 14] = [
    EARLIER,
    (0x2fff, 0x3fff),
    (0x1000, 0x2000),
    (0x3000, 0x3fff),
    (0x1000, 0x1fff),
    (0x2000, 0x2ffe),
    (0x2000, 0x3000),
    (0x2001, 0x2fff),
    (0x1fff, 0x2fff),
    (0x2001, 0x2ffe),
    (0x1fff, 0x3000),
    (0x2800, 0x2800),
    (0x0000, 0xffff_ffff),
    (0x3001, 0x3fff),
];

pub fn region(holder: u8, permission: u8, range: (u32, u32)) -> Region {
    Region { holder, permission, start: range.0, last: range.1 }
}

/// Every edge case of the regions, in a fixed order.
pub fn region_cases() -> Vec<Case> {
    let mut cases = pairs();
    cases.extend(single_regions());
    cases.extend(beside_each_other());
    cases.extend(counts());
    cases.extend(several_faults());
    cases.extend(out_of_place());
    cases.extend(cut_records());
    cases.extend(longest_images());
    cases
}

/// A small table with these regions, legal or not, and a log of a few events.
fn with_regions(vm_count: u8, regions: &[Region]) -> Case {
    let mut config = small(vm_count, 1);
    regions.iter().for_each(|region| config.push_region(*region));
    case(image_bytes(&config, Flaw::None))
}

fn case(image: Vec<u8>) -> Case {
    Case { image, log: log_of(&[Event::Start, TICK, TICK]) }
}

/// Two regions of two VMs: each range with each pair of permissions.
fn pairs() -> Vec<Case> {
    let mut cases = Vec::new();
    for range in PAIR_RANGES {
        for (earlier, later) in every_pair() {
            cases.push(with_regions(2, &[region(0, earlier, EARLIER), region(1, later, range)]));
        }
    }
    cases
}

fn every_pair() -> impl Iterator<Item = (u8, u8)> {
    (READ..=EXECUTE).flat_map(|earlier| (READ..=EXECUTE).map(move |later| (earlier, later)))
}

/// One region of VM 1 of two: the edges of each of its numbers (H2 to H4), and one step beyond.
fn single_regions() -> Vec<Case> {
    let top = u32::MAX;
    let ranges = [(0, 0), (top, top), (0, top), (5, 5), (0x2000, 0x1fff), (1, 0), (top, 0), (top, top - 1)];
    let ranges = ranges.map(|range| region(1, READ_WRITE, range));
    let holders = [0, 1, 2, 3, 7, 8, 128, 254, 255].map(|holder| region(holder, READ, EARLIER));
    let permissions = [0, 1, 2, 3, 4, 5, 128, 255].map(|permission| region(1, permission, EARLIER));
    let all = ranges.into_iter().chain(holders).chain(permissions);
    all.map(|region| with_regions(2, &[region])).collect()
}

/// What is allowed to one VM or to several (H6, H7); and clashes with a region that stands further in front.
fn beside_each_other() -> Vec<Case> {
    let own = |permission, range| region(0, permission, range);
    let mut cases: Vec<Case> = PAIR_RANGES
        .into_iter()
        .map(|range| with_regions(1, &[own(READ_WRITE, EARLIER), own(EXECUTE, range)]))
        .collect();
    let far = region(1, READ, (0x9000, 0x9fff));
    let clash = region(2, READ_WRITE, (0x2fff, 0x2fff));
    cases.extend([
        with_regions(3, &[own(READ, EARLIER), far, clash]),
        with_regions(3, &[own(READ_WRITE, EARLIER), far, far, region(2, EXECUTE, (0, 0x2000)), far]),
        // All VMs share one range; the entry of VM 1 lies in what VM 0 may write.
        with_regions(
            3,
            &[own(READ_WRITE, EARLIER), region(1, READ, EARLIER), region(2, READ_WRITE, EARLIER)],
        ),
        with_regions(2, &[own(READ_WRITE, (0x2000, 0x2003)), own(READ, (0x1000, 0x1000))]),
        // The order of the records is not that of the VMs.
        with_regions(3, &[clash, own(EXECUTE, (0, 15)), region(1, READ, (16, 31)), own(READ, (0, 31))]),
    ]);
    cases
}

/// So many regions of a VM, sixteen bytes each and one behind the other.
fn row(holder: u8, count: usize) -> Vec<Region> {
    let first = 0x1_0000 * (u32::from(holder) + 1);
    let range = |index: u32| (first + 16 * index, first + 16 * index + 15);
    (0..count as u32).map(|index| region(holder, READ_WRITE, range(index))).collect()
}

/// Eight regions of a VM and a ninth, alone and with other faults (H5, I9).
fn counts() -> Vec<Case> {
    let eight = row(0, MAX_REGIONS_OF_A_VM);
    let foreign = region(1, READ_WRITE, EARLIER);
    let ninth = |permission, range| {
        let mut regions = vec![foreign];
        regions.extend(&eight);
        regions.push(region(0, permission, range));
        with_regions(2, &regions)
    };
    let apart = (0x5000, 0x5fff);
    vec![
        with_regions(2, &eight),
        with_regions(2, &row(0, MAX_REGIONS_OF_A_VM + 1)),
        with_regions(1, &row(0, MAX_REGIONS_OF_A_VM + 1)),
        with_regions(2, &[row(0, 7), row(1, 8), row(0, 1)].concat()),
        with_regions(2, &[row(0, 8), row(1, 8), row(1, 1)].concat()),
        ninth(READ, apart),
        ninth(0, apart),
        ninth(READ, (0x5fff, 0x5000)),
        ninth(READ, (0x2fff, 0x3000)),
        ninth(9, (0x2fff, 0x2000)),
        with_regions(1, &[row(0, 8), vec![region(1, READ, apart)]].concat()),
        with_regions(2, &[row(0, 8), row(1, 8), vec![region(2, 0, apart)]].concat()),
    ]
}

/// Regions that have one of the faults 32, 33 and 34 and later ones of I9's order as well.
fn several_faults() -> Vec<Case> {
    let foreign = region(0, READ_WRITE, EARLIER);
    let backward = (0x2fff, 0x2000);
    let bad = [
        region(2, 0, backward),
        region(255, 4, (0x2001, 0x2002)),
        region(2, READ, backward),
        region(2, READ_WRITE, (0x2001, 0x2fff)),
        region(1, 0, backward),
        region(1, 4, backward),
        region(1, 0, (0x2001, 0x2fff)),
        region(1, READ_WRITE, backward),
        region(1, READ, (0x2801, 0x2800)),
        region(1, EXECUTE, (0x3000, 0x1fff)),
    ];
    bad.into_iter().map(|bad| with_regions(2, &[foreign, bad])).collect()
}

/// A region record where none may stand, whole and cut, good and bad (I15, I9).
fn out_of_place() -> Vec<Case> {
    let mut config = small(2, 1);
    config.push_region(region(0, READ, EARLIER));
    let image = image_bytes(&config, Flaw::None);
    let slots = slots_at(&config);
    let good = region_record(&region(1, READ, EARLIER), false);
    let bad = region_record(&region(200, 0, (1, 0)), false);
    let mut cases = Vec::new();
    for at in [0, 3, 12, slots + 4, slots + 8, slots + 12, image.len()] {
        for record in [&good[..], &bad, &good[..10], &good[..1]] {
            let rest = if record.len() == good.len() { &image[at..] } else { &[] };
            cases.push(case([&image[..at], record, rest].concat()));
        }
    }
    cases
}

/// A region record cut at each length, good and bad; and images that end behind their regions.
fn cut_records() -> Vec<Case> {
    let mut config = small(2, 1);
    config.push_region(region(0, READ_WRITE, EARLIER));
    let front = image_bytes(&config, Flaw::None)[..slots_at(&config)].to_vec();
    let good = region_record(&region(1, READ, (0x9000, 0x9fff)), false);
    let bad = region_record(&region(200, 0, (1, 0)), false);
    let mut tails: Vec<Vec<u8>> = Vec::new();
    for length in 1..good.len() {
        tails.extend([&good[..length], &bad[..length]].map(<[u8]>::to_vec));
    }
    tails.dedup();
    tails.extend([vec![], vec![KIND_END], vec![KIND_END, KIND_REGION], vec![6], vec![KIND_CORE, 1, 0]]);
    tails.extend([vec![KIND_VM; 9], vec![KIND_SLOT, SPARE, 1, 0, KIND_END], good]);
    tails.into_iter().map(|tail| case([front.clone(), tail].concat())).collect()
}

/// Eight regions of each of eight VMs, the records of the VMs mixed, and 64 slots: 1,036 bytes (S9).
pub fn longest_config() -> Config {
    let mut config = small(MAX_VMS as u8, 16);
    let rows: Vec<Vec<Region>> = (0..MAX_VMS as u8).map(|vm| row(vm, MAX_REGIONS_OF_A_VM)).collect();
    for index in 0..MAX_REGIONS_OF_A_VM {
        rows.iter().for_each(|row| config.push_region(row[index]));
    }
    config.slot_count = MAX_SLOTS as u8;
    for (index, slot) in config.slots.iter_mut().enumerate() {
        *slot = Slot { owner: (index % MAX_VMS) as u8, ticks: 1 + index as u16 };
    }
    config
}

/// The longest image; one region more, one slot more, more bytes behind it (I14).
fn longest_images() -> Vec<Case> {
    let config = longest_config();
    let image = image_bytes(&config, Flaw::None);
    let slots = slots_at(&config);
    let with_65th = |bad: Region| {
        let record = region_record(&bad, false);
        case([&image[..slots], &record, &image[slots..]].concat())
    };
    let all_but_end = &image[..image.len() - 1];
    vec![
        case(image.clone()),
        with_65th(region(0, READ, EARLIER)),
        with_65th(region(7, 0, (1, 0))),
        with_65th(region(8, READ, EARLIER)),
        with_65th(region(255, 0, (1, 0))),
        case([all_but_end, &[KIND_SLOT, 0, 1, 0, KIND_END]].concat()),
        case([all_but_end, &[KIND_SLOT, 200, 0, 0]].concat()),
        case([all_but_end, &[KIND_SLOT, 0, 1]].concat()),
        case([all_but_end, &region_record(&region(0, READ, EARLIER), false)].concat()),
        case(all_but_end.to_vec()),
        case([&image[..], &[KIND_END]].concat()),
        case([&image[..], &[0; 3_000]].concat()),
    ]
}
