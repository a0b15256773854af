//! Random folders of access queries: the ranges end at or beside the ends of regions, and some files are
//! damaged.

use crate::access::folder::AccessFolder;
use crate::access::grants::END_OF_SPACE;
use crate::access::query::{records_of, Query};
use crate::core::config::Config;
use crate::core::flaw::Flaw;
use crate::core::limits::{MAX_QUERIES_BYTES, MAX_REGIONS_OF_A_VM, QUERY_BYTES};
use crate::core::region::{Region, EXECUTE, READ_WRITE, WAY_EXECUTE, WAY_READ, WAY_WRITE};
use crate::generate::image::{legal_config, mostly_good_image};
use crate::generate::random::Random;
use crate::generate::regions::add_regions;
use crate::image::read::read_image;

/// These folders draw from other numbers than the cases and the other folders of the same seed.
const FIRST_DRAW: u64 = 1 << 49;

/// The folder with this number, from 0. It depends on the seed and the number alone.
pub fn generated_access(seed: u64, number: usize) -> AccessFolder {
    let mut random = Random::of_case(seed, FIRST_DRAW + number as u64);
    let config = config_with_regions(&mut random);
    let image = mostly_good_image(&mut random, &config);
    let refused = read_image(image.as_deref().unwrap_or_default(), Flaw::None).is_err();
    AccessFolder { image, queries: query_file(&mut random, &config, refused) }
}

fn config_with_regions(random: &mut Random) -> Config {
    let mut config = legal_config(random);
    if config.region_count == 0 && random.percent(85) {
        let all = MAX_REGIONS_OF_A_VM * usize::from(config.vm_count);
        let count = random.between(1, all.min(12));
        add_regions(random, &mut config, count);
    }
    config
}

/// Mostly up to 200 queries; sometimes none, no file, as many as can be or more. Too many are more likely
/// beside a refused image, which is judged first (N25).
fn query_file(random: &mut Random, config: &Config, refused: bool) -> Option<Vec<u8>> {
    let long = if refused { 30 } else { 3 };
    match random.weighted(&[88, 3, 2, 3, long]) {
        1 => Some(Vec::new()),
        2 => None,
        3 => Some(queries_of_length(random, config, MAX_QUERIES_BYTES)),
        4 => {
            let length = MAX_QUERIES_BYTES + random.pick(&[1, 5, 9, 10, 11, 5_536]);
            Some(queries_of_length(random, config, length))
        }
        _ => {
            let whole = QUERY_BYTES * query_count(random);
            let cut = if random.percent(25) { random.between(1, QUERY_BYTES - 1) } else { 0 };
            Some(queries_of_length(random, config, whole + cut))
        }
    }
}

fn query_count(random: &mut Random) -> usize {
    match random.below(10) {
        0 => random.below(4),
        1..=6 => random.between(1, 60),
        _ => random.between(60, 200),
    }
}

/// Queries of exactly so many bytes, the last one cut where they do not divide by ten.
pub fn queries_of_length(random: &mut Random, config: &Config, length: usize) -> Vec<u8> {
    let queries: Vec<Query> = (0..length.div_ceil(QUERY_BYTES)).map(|_| query(random, config)).collect();
    let mut bytes = records_of(&queries);
    bytes.truncate(length);
    bytes
}

/// A query about a region, mostly for its holder and in a way that it allows.
fn query(random: &mut Random, config: &Config) -> Query {
    let region = match config.memory() {
        [] => Region::default(),
        regions => random.pick(regions),
    };
    let (vm, way) = (vm(random, config, &region), way(random, &region));
    let (address, length) = match random.weighted(&[70, 12, 6, 7, 5]) {
        0 => between_ends(random, config, region),
        1 => (end(random, &region) as u32, random.pick(&[1, 1, 2, 4, 16])),
        2 => (end(random, &region) as u32, 0),
        3 => about_the_end_of_space(random, &region),
        _ => (random.word(), random.word()),
    };
    Query { vm, way, address, length }
}

fn vm(random: &mut Random, config: &Config, region: &Region) -> u8 {
    match random.weighted(&[75, 18, 7]) {
        0 => region.holder,
        1 => random.below(usize::from(config.vm_count)) as u8,
        _ => random.pick(&[config.vm_count, 8, 9, 128, 255]),
    }
}

fn way(random: &mut Random, region: &Region) -> u8 {
    match (random.weighted(&[60, 33, 7]), region.permission) {
        (0, READ_WRITE) => random.pick(&[WAY_READ, WAY_WRITE]),
        (0, EXECUTE) => WAY_EXECUTE,
        (0, _) => WAY_READ,
        (1, _) => random.pick(&[WAY_READ, WAY_WRITE, WAY_EXECUTE]),
        _ => random.pick(&[0, 4, 5, 128, 255]),
    }
}

/// The first byte of a region or the one behind its last, or a byte beside one of these.
fn end(random: &mut Random, region: &Region) -> u64 {
    let bytes = region.bytes();
    let exact = random.pick(&[bytes.start, bytes.end]);
    match random.weighted(&[64, 12, 12, 12]) {
        0 => exact,
        1 => exact.saturating_sub(1),
        2 => (exact + 1).min(END_OF_SPACE),
        _ => bytes.start + (bytes.end - bytes.start) / 2,
    }
}

/// From an end of the region to an end of the same or of another one, often of a neighbour's.
fn between_ends(random: &mut Random, config: &Config, region: Region) -> (u32, u32) {
    let other = match config.memory() {
        [] => region,
        _ if random.percent(50) => region,
        regions => random.pick(regions),
    };
    let (one, two) = (end(random, &region), end(random, &other));
    let first = one.min(two).min(u64::from(u32::MAX));
    let length = (one.max(two) - first).min(u64::from(u32::MAX));
    (first as u32, length as u32)
}

/// A range that ends with the space, or goes past its end by a byte or by much.
fn about_the_end_of_space(random: &mut Random, region: &Region) -> (u32, u32) {
    let address = match random.below(3) {
        0 => region.start,
        1 => u32::MAX - random.pick(&[0, 1, 15, 255]),
        _ => u32::MAX - region.start,
    };
    let up_to_end = (END_OF_SPACE - u64::from(address)).min(u64::from(u32::MAX)) as u32;
    let past = random.pick(&[0, 0, 1, 2, 16, 0x1000]);
    (address, up_to_end.saturating_add(past))
}
