//! Memory regions for the cases: legal ones, mostly close to each other, and one directed maker per fault.

use crate::core::config::Config;
use crate::core::flaw::Flaw;
use crate::core::limits::{MAX_REGIONS_OF_A_VM, MAX_VMS, WINDOW_BASE, WINDOW_BYTES};
use crate::core::region::{Region, EXECUTE, READ, READ_WRITE};
use crate::generate::image::legal_config;
use crate::generate::random::Random;
use crate::image::read::read_image;
use crate::image::region_fault::region_fault;
use crate::image::write::{image_bytes, region_record};

/// How often a place for one more region is looked for.
const TRIES: usize = 12;

/// Lengths of regions in bytes.
const SIZES: [u32; 8] = [1, 2, 3, 16, 0x100, 0x1000, 0x1000, 0x1_0000];

/// Gives a configuration regions: mostly none, a few, or some about the window of a copy, seldom as many as
/// there can be.
pub fn add_some_regions(random: &mut Random, config: &mut Config) {
    let all = MAX_REGIONS_OF_A_VM * usize::from(config.vm_count);
    let count = match random.below(20) {
        0..=6 => 0,
        7..=9 => random.between(1, 5),
        10..=16 => {
            add_room_to_copy(random, config);
            let more = usize::from(config.region_count) + random.below(4);
            return add_window_regions(random, config, more);
        }
        17..=18 => random.between(1, all),
        _ => all,
    };
    add_regions(random, config, count);
}

/// Adds so many legal regions, as far as places for them are found.
pub fn add_regions(random: &mut Random, config: &mut Config, count: usize) {
    add_by(random, config, count, some_region);
}

/// Adds regions in the window and about its ends, until there are so many, as far as places are found.
pub fn add_window_regions(random: &mut Random, config: &mut Config, count: usize) {
    add_by(random, config, count, window_region);
}

fn add_by(
    random: &mut Random,
    config: &mut Config,
    count: usize,
    make: impl Fn(&mut Random, &Config) -> Region,
) {
    for _ in 0..count * TRIES {
        if usize::from(config.region_count) >= count {
            return;
        }
        let region = make(random, config);
        add_if_legal(config, region);
    }
}

fn add_if_legal(config: &mut Config, region: Region) {
    if region_fault(config, &region, Flaw::None).is_none() {
        config.push_region(region);
    }
}

/// Gives most VMs memory of the window that they may write; what one writes another may read (H6).
pub fn add_room_to_copy(random: &mut Random, config: &mut Config) {
    for holder in 0..config.vm_count {
        if random.percent(75) {
            let (start, last) = window_range(random);
            add_if_legal(config, Region { holder, permission: READ_WRITE, start, last });
        }
        if let (Some(shared), true) = (config.memory().first().copied(), random.percent(35)) {
            let permission = random.pick(&[READ, READ, READ_WRITE]);
            add_if_legal(config, Region { holder, permission, ..shared });
        }
    }
}

/// A region in the window or about its ends, mostly near another one.
fn window_region(random: &mut Random, config: &Config) -> Region {
    let region = some_region(random, config);
    let permission = random.pick(&[READ, READ, READ_WRITE, READ_WRITE, READ_WRITE, EXECUTE]);
    let (start, last) = match config.memory() {
        [.., other] if random.percent(50) => {
            let more = random.pick(&[1, 16, 0x100]) - 1;
            near(random, *other, more)
        }
        _ => window_range(random),
    };
    Region { permission, start, last, ..region }
}

/// A range in the window, mostly in its first pages; or over one of its ends; or all of it.
fn window_range(random: &mut Random) -> (u32, u32) {
    let more = random.pick(&[16, 64, 0x100, 0x200, 0x400, 0x1000]) - 1;
    let end = WINDOW_BASE + WINDOW_BYTES as u32;
    let near = random.pick(&[0, 1, 16, 0x80]);
    let start = match random.below(16) {
        0 => WINDOW_BASE - near,
        1 => end - 1 - more + near,
        2 => end - near.max(1),
        3 => return (WINDOW_BASE, end - 1),
        4..=5 => WINDOW_BASE + 16 * random.below(WINDOW_BYTES / 16) as u32,
        _ => WINDOW_BASE + 16 * random.below(0x100) as u32,
    };
    (start, start + more)
}

/// A region of a VM that has room for it; it may clash with others.
fn some_region(random: &mut Random, config: &Config) -> Region {
    let room: Vec<u8> =
        (0..config.vm_count).filter(|vm| config.regions_of(*vm) < MAX_REGIONS_OF_A_VM).collect();
    let holder = if room.is_empty() { 0 } else { random.pick(&room) };
    let permission = random.pick(&[READ, READ, READ_WRITE, READ_WRITE, EXECUTE]);
    let (start, last) = range(random, config.memory());
    Region { holder, permission, start, last }
}

/// A range by itself, or one that goes by another's ends.
fn range(random: &mut Random, others: &[Region]) -> (u32, u32) {
    let more = random.pick(&SIZES) - 1;
    if !others.is_empty() && random.percent(60) {
        let other = random.pick(others);
        return near(random, other, more);
    }
    match random.below(30) {
        0 => (0, more),
        1 => (u32::MAX - more, u32::MAX),
        2 => (0, u32::MAX),
        3 => {
            let start = random.word();
            (start, start.saturating_add(more))
        }
        4..=9 => window_range(random),
        _ => {
            let start = 0x2000_0000 + 0x1000 * random.below(64) as u32;
            (start, start + more)
        }
    }
}

/// The same range as another's; one beside it, with or without a gap; one that shares a byte or more with it.
fn near(random: &mut Random, other: Region, more: u32) -> (u32, u32) {
    let (start, last) = (other.start, other.last);
    let from = |first: u32| (first, first.saturating_add(more));
    let up_to = |end: u32| (end.saturating_sub(more), end);
    match random.weighted(&[30, 14, 12, 8, 8, 5, 5, 12, 6]) {
        0 => (start, last),
        1 => from(last.saturating_add(1)),
        2 => up_to(start.saturating_sub(1)),
        3 => from(last),
        4 => up_to(start),
        5 => from(last.saturating_add(2)),
        6 => up_to(start.saturating_sub(2)),
        7 => off_by_one(random, start, last),
        _ => (start.saturating_sub(more), last.saturating_add(more)),
    }
}

/// A range with one of its ends moved by one byte.
fn off_by_one(random: &mut Random, start: u32, last: u32) -> (u32, u32) {
    let (start, last) = match random.below(4) {
        0 => (start.saturating_add(1), last),
        1 => (start.saturating_sub(1), last),
        2 => (start, last.saturating_add(1)),
        _ => (start, last.saturating_sub(1)),
    };
    (start.min(last), start.max(last))
}

/// An image that the reader must refuse with this fault of a region, 32 to 36.
pub fn image_with_bad_region(random: &mut Random, fault: u8) -> Vec<u8> {
    loop {
        let config = config_before(random, fault);
        let region = bad_region(random, &config, fault);
        let image = with_record(random, &config, &region);
        if read_image(&image, Flaw::None).is_err_and(|found| found.number == fault) {
            return image;
        }
    }
}

/// The regions before a faulty one: some, or for a ninth one all eight of some VMs.
fn config_before(random: &mut Random, fault: u8) -> Config {
    let mut config = legal_config(random);
    let some = random.between(1, 6);
    add_regions(random, &mut config, some);
    let full = random.below(MAX_VMS) as u8;
    for vm in 0..config.vm_count {
        while fault == 35 && vm <= full && config.regions_of(vm) < MAX_REGIONS_OF_A_VM {
            let start = 0x8000_0000 + 16 * u32::from(config.region_count);
            config.push_region(Region { holder: vm, permission: READ_WRITE, start, last: start + 15 });
        }
    }
    config
}

/// A region with this fault, and often with later ones of I9's order as well.
fn bad_region(random: &mut Random, config: &Config, fault: u8) -> Region {
    let mut region = some_region(random, config);
    let unknown = random.pick(&[0, 4, 5, 128, 255]);
    match fault {
        32 => region.holder = random.pick(&[config.vm_count, 8, 9, 128, 255]),
        35 => region.holder = random.below(usize::from(config.vm_count)) as u8,
        33 => region.permission = unknown,
        34 => (region.start, region.last) = backward(random, region),
        _ => {}
    }
    if fault == 32 || fault == 35 {
        region.permission = random.pick(&[READ, READ_WRITE, EXECUTE, unknown]);
    }
    if [32, 33, 35].contains(&fault) && random.percent(40) {
        (region.start, region.last) = backward(random, region);
    }
    region
}

/// A range that starts after its last address, mostly by one byte.
fn backward(random: &mut Random, region: Region) -> (u32, u32) {
    match random.below(3) {
        0 => (region.last, region.start),
        1 => (region.start, region.start.saturating_sub(1)),
        _ => (region.last.saturating_add(1), region.last),
    }
}

/// The image with one more region behind the others, sometimes with yet another one behind that.
fn with_record(random: &mut Random, config: &Config, region: &Region) -> Vec<u8> {
    let mut image = image_bytes(config, Flaw::None);
    let mut more = region_record(region, false);
    if random.percent(30) {
        more.extend(region_record(&some_region(random, config), false));
    }
    let at = slots_at(config);
    image.splice(at..at, more);
    image
}

/// Where the slots of a configuration's image begin (I6).
pub fn slots_at(config: &Config) -> usize {
    3 + 9 * usize::from(config.vm_count) + 11 * usize::from(config.region_count)
}

/// An image with a region record where there is no place for one, which is 21, at times a cut one.
pub fn image_with_region_out_of_place(random: &mut Random) -> Vec<u8> {
    let config = legal_config(random);
    let mut image = image_bytes(&config, Flaw::None);
    let vm = random.below(usize::from(config.vm_count));
    let slot = random.between(1, usize::from(config.slot_count));
    let at = random.pick(&[0, 3 + 9 * vm, slots_at(&config) + 4 * slot, slots_at(&config) + 4]);
    let record = region_record(&some_region(random, &config), false);
    if random.percent(30) {
        image.truncate(at);
        image.extend(&record[..random.between(1, record.len() - 1)]);
    } else {
        image.splice(at..at, record);
    }
    image
}
