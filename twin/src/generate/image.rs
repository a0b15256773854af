//! Images for the cases: legal configurations, edges of the sizes, and one directed maker per fault.

use crate::core::config::{Config, Slot, VmPlace, SPARE};
use crate::core::flaw::Flaw;
use crate::core::limits::{MAX_QUEUE, MAX_SLOTS, MAX_SLOT_TICKS, MAX_VMS};
use crate::generate::case::change_bytes;
use crate::generate::random::Random;
use crate::generate::regions::{
    add_some_regions, image_with_bad_region, image_with_region_out_of_place, slots_at,
};
use crate::image::read::{KIND_CORE, KIND_END, KIND_REGION, KIND_SLOT, KIND_VM};
use crate::image::write::image_bytes;

/// Every fault of an image, in the order of the numbers (I8).
pub const FAULTS: [u8; 14] = [20, 21, 22, 23, 24, 25, 26, 27, 28, 32, 33, 34, 35, 36];

/// A legal configuration with many small slots, so that a run soon goes round its table. Most of them have
/// no regions or a few.
pub fn legal_config(random: &mut Random) -> Config {
    let vm_count = if random.percent(20) { random.pick(&[1, MAX_VMS]) } else { random.between(1, MAX_VMS) };
    let queue_size = match random.below(10) {
        0..=2 => random.pick(&[0, MAX_QUEUE]),
        3..=4 => random.between(1, MAX_QUEUE - 1),
        _ => random.between(1, 4),
    };
    let most = if random.percent(10) { MAX_SLOTS } else { vm_count + 6 };
    let slot_count = random.between(vm_count, most.min(MAX_SLOTS));
    let mut config = config_of(random, vm_count, queue_size, slot_count);
    add_some_regions(random, &mut config);
    config
}

/// A legal configuration with these counts and without regions; there is a slot for each VM.
pub fn config_of(random: &mut Random, vm_count: usize, queue_size: usize, slot_count: usize) -> Config {
    let mut config = Config::zero();
    config.vm_count = vm_count as u8;
    config.queue_size = queue_size as u8;
    config.slot_count = slot_count as u8;
    for (index, vm) in config.vms[..vm_count].iter_mut().enumerate() {
        *vm = vm_place(random, index);
    }
    let spare_share = random.pick(&[0, 15, 35, 60]);
    let style = random.below(8);
    for slot in &mut config.slots[..slot_count] {
        *slot = match random.percent(spare_share) {
            true => Slot { owner: SPARE, ticks: 1 },
            false => Slot { owner: random.below(vm_count) as u8, ticks: duration(random, style) },
        };
    }
    give_everyone_a_slot(random, &mut config, style);
    config
}

fn vm_place(random: &mut Random, index: usize) -> VmPlace {
    match random.percent(60) {
        true => {
            let entry = 0x1000 * (index as u32 + 1);
            VmPlace { entry, handler: entry + 4 }
        }
        false => VmPlace { entry: random.word(), handler: random.word() },
    }
}

/// One style has slots of any length, the others short ones.
fn duration(random: &mut Random, style: usize) -> u16 {
    if style == 0 {
        let any = random.between(1, usize::from(MAX_SLOT_TICKS)) as u16;
        return random.pick(&[1, 2, any, 255, 256, MAX_SLOT_TICKS - 1, MAX_SLOT_TICKS]);
    }
    random.pick(&[1, 1, 1, 2, 2, 3, 5])
}

fn give_everyone_a_slot(random: &mut Random, config: &mut Config, style: usize) {
    let count = usize::from(config.slot_count);
    let first = random.below(count);
    for vm in 0..usize::from(config.vm_count) {
        let ticks = duration(random, style);
        config.slots[(first + vm) % count] = Slot { owner: vm as u8, ticks };
    }
}

/// The image of a configuration; sometimes a refused one in its place, or none.
pub fn mostly_good_image(random: &mut Random, config: &Config) -> Option<Vec<u8>> {
    let mut image = image_bytes(config, Flaw::None);
    match random.weighted(&[93, 3, 2, 2]) {
        1 => {
            let fault = random.pick(&FAULTS);
            image = faulty_image(random, fault);
        }
        2 => change_bytes(random, &mut image, 1),
        3 => return None,
        _ => {}
    }
    Some(image)
}

/// An image that the reader must refuse with this fault number, one of FAULTS.
pub fn faulty_image(random: &mut Random, fault: u8) -> Vec<u8> {
    match fault {
        32..=36 => return image_with_bad_region(random, fault),
        21 if random.percent(30) => return image_with_region_out_of_place(random),
        _ => {}
    }
    let config = legal_config(random);
    let mut image = image_bytes(&config, Flaw::None);
    let slots_at = slots_at(&config);
    let slot = slots_at + 4 * random.below(usize::from(config.slot_count));
    match fault {
        20 => image.truncate(random.below(image.len())),
        21 => wrong_kind(random, &mut image, slots_at),
        22 => {
            let (place, values) = random.pick(&[(1, [0u8, 9, 255]), (2, [17, 18, 255])]);
            image[place] = random.pick(&values);
        }
        23 => {
            image[slot + 1] = random.pick(&[config.vm_count, 8, 9, 128, 254]);
            let ticks = random.pick(&[0u16, 1, 2, 1_001]);
            image[slot + 2..slot + 4].copy_from_slice(&ticks.to_le_bytes());
        }
        24 => set_slot(&mut image, slot, SPARE, random.pick(&[0, 2, 256, 257, 65_535])),
        25 => set_slot(&mut image, slot, 0, random.pick(&[0, 1_001, 1_024, 65_535])),
        26 => return too_many_slots(random),
        27 => return without_a_slot(random, &config, slots_at),
        _ => {
            let more = random.between(1, 9);
            let tail = if random.percent(50) { vec![KIND_END; more] } else { random.bytes(more) };
            image.extend(tail);
        }
    }
    image
}

fn set_slot(image: &mut [u8], at: usize, owner: u8, ticks: u16) {
    image[at + 1] = owner;
    image[at + 2..at + 4].copy_from_slice(&ticks.to_le_bytes());
}

/// A record in the wrong place, an unknown kind, or an unknown kind as the last byte.
fn wrong_kind(random: &mut Random, image: &mut Vec<u8>, slots_at: usize) {
    match random.below(5) {
        0 => image[0] = random.pick(&[KIND_VM, KIND_SLOT, KIND_END, KIND_REGION, 0, 6]),
        1 => image[3] = random.pick(&[KIND_CORE, KIND_SLOT, KIND_END, KIND_REGION, 0, 6, 255]),
        2 => image[slots_at] = random.pick(&[KIND_CORE, KIND_VM, 0, 6, 16]),
        3 => {
            image.truncate(slots_at);
            image.push(random.pick(&[KIND_CORE, KIND_VM, 0, 6, 255]));
        }
        _ => {
            image.truncate(3);
            image.push(random.pick(&[KIND_CORE, KIND_SLOT, KIND_END, KIND_REGION, 6]));
        }
    }
}

fn too_many_slots(random: &mut Random) -> Vec<u8> {
    let vm_count = random.between(1, MAX_VMS);
    let queue_size = random.between(0, MAX_QUEUE);
    let config = config_of(random, vm_count, queue_size, MAX_SLOTS);
    let mut image = image_bytes(&config, Flaw::None);
    image.pop();
    image.extend([KIND_SLOT, random.pick(&[0, SPARE, 200]), random.pick(&[0, 1, 2]), 0, KIND_END]);
    image
}

/// Takes every slot away, or only those of one VM; sometimes bytes follow as well.
fn without_a_slot(random: &mut Random, config: &Config, slots_at: usize) -> Vec<u8> {
    let mut image = image_bytes(config, Flaw::None);
    let lost = random.below(usize::from(config.vm_count)) as u8;
    let none = random.percent(30);
    image.truncate(slots_at);
    for slot in config.table().iter().filter(|slot| !none && slot.owner != lost) {
        image.extend([KIND_SLOT, slot.owner]);
        image.extend(slot.ticks.to_le_bytes());
    }
    image.push(KIND_END);
    if random.percent(30) {
        image.push(random.byte());
    }
    image
}
