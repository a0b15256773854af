//! Random folders of runs with their memory: logs that are mostly copies, so that bytes really move.

use crate::core::config::Config;
use crate::core::flaw::Flaw;
use crate::core::limits::{MAX_LOG_BYTES, WINDOW_BYTES};
use crate::generate::case::change_bytes;
use crate::generate::image::{config_of, mostly_good_image};
use crate::generate::log::LogMaker;
use crate::generate::random::Random;
use crate::generate::regions::{add_room_to_copy, add_window_regions};
use crate::image::read::read_image;
use crate::memlog::folder::{MemoryFile, MemoryFolder};

/// These folders draw from other numbers than the cases and the other folders of the same seed.
const FIRST_DRAW: u64 = 1 << 50;

/// The folder with this number, from 0. It depends on the seed and the number alone.
pub fn generated_memory(seed: u64, number: usize) -> MemoryFolder {
    let mut random = Random::of_case(seed, FIRST_DRAW + number as u64);
    let config = config_with_room(&mut random);
    let image = mostly_good_image(&mut random, &config);
    let refused = read_image(image.as_deref().unwrap_or_default(), Flaw::None).is_err();
    let log = log_file(&mut random, &config, refused);
    MemoryFolder { image, log, memory: memory_file(&mut random) }
}

/// A few VMs, most of which may copy something.
fn config_with_room(random: &mut Random) -> Config {
    let vm_count = random.between(1, 4);
    let (queue_size, slot_count) = (random.between(0, 4), random.between(vm_count, vm_count + 3));
    let mut config = config_of(random, vm_count, queue_size, slot_count);
    add_room_to_copy(random, &mut config);
    let more = usize::from(config.region_count) + random.between(0, 6);
    add_window_regions(random, &mut config, more);
    config
}

/// Mostly up to 60 steps; sometimes cut, changed, missing, as long as can be or longer. Too long a log is more
/// likely beside a refused image, which is judged first (N6).
fn log_file(random: &mut Random, config: &Config, refused: bool) -> Option<Vec<u8>> {
    let long = if refused { 20 } else { 2 };
    let steps = random.between(3, 60);
    let kind = random.weighted(&[80, 9, 5, 2, 2, long]);
    if kind == 3 {
        return None;
    }
    let mut log = match kind {
        4 => LogMaker::copying(random, config).bytes(MAX_LOG_BYTES),
        5 => {
            let length = MAX_LOG_BYTES + random.pick(&[1, 2, 102, 5_536]);
            LogMaker::copying(random, config).bytes(length)
        }
        _ => LogMaker::copying(random, config).events(steps),
    };
    match kind {
        1 => log.truncate(random.below(log.len() + 1)),
        2 => change_bytes(random, &mut log, 2),
        _ => {}
    }
    Some(log)
}

/// Mostly some pages of random bytes with zeros among them; sometimes the whole window, more, or nothing.
fn memory_file(random: &mut Random) -> MemoryFile {
    let length = match random.weighted(&[60, 15, 6, 8, 3, 5, 3]) {
        0 => random.between(0x100, 0x1400),
        1 => WINDOW_BYTES,
        2 => WINDOW_BYTES + random.pick(&[1, 32, 5_000]),
        3 => random.between(1, 0x100),
        4 => 0,
        5 => return MemoryFile::Missing,
        _ => return MemoryFile::Folder,
    };
    let mut bytes = random.bytes(length);
    for _ in 0..random.below(5) {
        let from = random.below(length + 1);
        let to = length.min(from + random.below(0x400));
        bytes[from..to].fill(0);
    }
    MemoryFile::Bytes(bytes)
}
