//! The fixed folders of every comparison of access queries: they reach each listed point by themselves.

use crate::access::folder::AccessFolder;
use crate::access::grants::END_OF_SPACE;
use crate::access::query::{records_of, Query};
use crate::core::config::Config;
use crate::core::flaw::Flaw;
use crate::core::limits::{MAX_QUERIES_BYTES, QUERY_BYTES};
use crate::core::region::{EXECUTE, READ, READ_WRITE, WAY_EXECUTE, WAY_READ, WAY_WRITE};
use crate::edges::cases::small;
use crate::edges::regions::{longest_config, region};
use crate::generate::image::{faulty_image, FAULTS};
use crate::generate::random::Random;
use crate::image::write::image_bytes;

/// A folder and what it is, in words.
pub struct EdgeAccess {
    pub title: String,
    pub folder: AccessFolder,
}

fn edge(title: &str, image: Option<Vec<u8>>, queries: Option<Vec<u8>>) -> EdgeAccess {
    EdgeAccess { title: String::from(title), folder: AccessFolder { image, queries } }
}

/// Every fixed folder of a seed, in a fixed order.
pub fn edge_accesses(seed: u64) -> Vec<EdgeAccess> {
    let mut random = Random::of_case(seed, u64::MAX - 2);
    let mut edges = missing_files();
    edges.extend(every_range());
    edges.extend(unknown_numbers());
    edges.extend(other_configurations());
    edges.extend(cut_records());
    edges.extend(lengths());
    edges.extend(refused_images(&mut random));
    edges
}

/// VM 0: regions that adjoin, overlap, leave a gap of one byte, and lie at both ends of the space. VM 1: one
/// that it shares, one inside another, three in a row to be executed. VM 2: one. VM 3: none.
fn config() -> Config {
    let mut config = small(4, 1);
    let regions = [
        region(0, READ_WRITE, (0x2000, 0x2fff)),
        region(1, READ_WRITE, (0x2000, 0x2fff)),
        region(0, READ, (0x3000, 0x3fff)),
        region(0, READ, (0x4001, 0x4fff)),
        region(0, EXECUTE, (0x8000, 0x8fff)),
        region(2, EXECUTE, (0x8000, 0x9fff)),
        region(0, READ, (0x6000, 0x6fff)),
        region(0, READ, (0x6800, 0x77ff)),
        region(0, READ_WRITE, (0xffff_f000, u32::MAX)),
        region(0, READ, (0, 0xff)),
        region(1, READ, (0xa000, 0xafff)),
        region(1, READ, (0xa100, 0xa1ff)),
        region(1, EXECUTE, (0xb200, 0xb2ff)),
        region(1, EXECUTE, (0xb000, 0xb0ff)),
        region(1, EXECUTE, (0xb100, 0xb1ff)),
        region(1, READ, (0xb300, 0xb300)),
    ];
    regions.into_iter().for_each(|region| config.push_region(region));
    config
}

fn image() -> Vec<u8> {
    image_bytes(&config(), Flaw::None)
}

/// The common image and these queries.
fn asked(title: &str, queries: &[Query]) -> EdgeAccess {
    edge(title, Some(image()), Some(records_of(queries)))
}

fn missing_files() -> Vec<EdgeAccess> {
    let queries = || Some(records_of(&ends_of_space()));
    vec![
        edge("no files", None, None),
        edge("no image", None, queries()),
        edge("no queries", Some(image()), None),
        edge("empty queries", Some(image()), Some(Vec::new())),
        edge("empty image", Some(Vec::new()), queries()),
        edge("empty files", Some(Vec::new()), Some(Vec::new())),
    ]
}

/// The places about the ends of a VM's regions: each end, one byte before it, one behind it.
fn places(config: &Config, vm: u8) -> Vec<u64> {
    let own = config.memory().iter().filter(|region| region.holder == vm);
    let ends = own.flat_map(|region| [region.bytes().start, region.bytes().end]);
    let mut places: Vec<u64> = ends.flat_map(|end| [end.saturating_sub(1), end, end + 1]).collect();
    places.sort_unstable();
    places.dedup();
    places
}

/// Every range between two such places, for a VM and in a way.
fn ranges(config: &Config, vm: u8, way: u8) -> Vec<Query> {
    let places = places(config, vm);
    let mut queries = Vec::new();
    for (index, start) in places.iter().enumerate() {
        for end in &places[index..] {
            if let (Ok(address), Ok(length)) = (u32::try_from(*start), u32::try_from(end - start)) {
                queries.push(Query { vm, way, address, length });
            }
        }
    }
    queries
}

/// For each VM with regions and each way every range between the ends of its regions; those of VM 0 and VM 1
/// also for VMs that do not hold them.
fn every_range() -> Vec<EdgeAccess> {
    let config = config();
    let mut edges = Vec::new();
    for vm in 0..3 {
        for way in WAY_READ..=WAY_EXECUTE {
            let queries = ranges(&config, vm, way);
            edges.push(asked(&format!("ranges of VM {vm}, way {way}"), &queries));
        }
    }
    let of_others = |vm: u8, other: u8| {
        let queries: Vec<Query> = (WAY_READ..=WAY_EXECUTE)
            .flat_map(|way| ranges(&config, other, way))
            .step_by(3)
            .map(|query| Query { vm, ..query })
            .collect();
        asked(&format!("ranges of VM {other} for VM {vm}"), &queries)
    };
    edges.extend([of_others(0, 1), of_others(1, 0), of_others(2, 0), of_others(3, 0)]);
    edges
}

/// VMs and ways that there are not, with and without bytes, inside a region and outside.
fn unknown_numbers() -> Vec<EdgeAccess> {
    let mut queries = Vec::new();
    for (vm, way) in (0..=255).map(|vm| (vm, WAY_READ)).chain((0..=255).map(|way| (0, way))) {
        for (address, length) in [(0x2000, 16), (0x2000, 0), (0x9000_0000, 0), (u32::MAX, 2), (u32::MAX, 0)] {
            queries.push(Query { vm, way, address, length });
        }
    }
    let both = |vm: u8, way: u8| Query { vm, way, address: 0x2000, length: 0 };
    let ends = vec![both(4, 0), both(255, 255), both(4, 4), both(3, 0)];
    vec![asked("every VM and every way", &queries), asked("no such VM and no such way", &ends)]
}

/// Ranges about the end of the space, for a VM that has the last bytes and the first.
fn ends_of_space() -> Vec<Query> {
    let mut queries = Vec::new();
    for before in [1u32, 2, 16, 0x1000, 0x1001, 0x8000_0000, u32::MAX] {
        let address = (END_OF_SPACE - u64::from(before)) as u32;
        for length in
            [0, 1, before - 1, before, before.saturating_add(1), before.saturating_add(0x100), u32::MAX]
        {
            for way in [WAY_READ, WAY_WRITE, WAY_EXECUTE] {
                queries.push(Query { vm: 0, way, address, length });
            }
        }
    }
    queries.extend([0, 1, 0x100, u32::MAX].map(|length| Query { vm: 0, way: WAY_READ, address: 0, length }));
    queries
}

/// No regions, the whole space, as many regions as there can be; and the ends of the space.
fn other_configurations() -> Vec<EdgeAccess> {
    let none = small(2, 0);
    let mut whole = small(3, 0);
    whole.push_region(region(0, READ, (0, u32::MAX)));
    whole.push_region(region(1, EXECUTE, (0, 0x7fff_ffff)));
    whole.push_region(region(1, EXECUTE, (0x8000_0000, u32::MAX)));
    let most = longest_config();
    let rows: Vec<Query> = (0..8)
        .flat_map(|vm| ranges(&most, vm, WAY_WRITE))
        .step_by(3)
        .take(MAX_QUERIES_BYTES / QUERY_BYTES)
        .collect();
    let for_both =
        [ends_of_space(), ends_of_space().into_iter().map(|query| Query { vm: 1, ..query }).collect()];
    let bytes = |config: &Config| Some(image_bytes(config, Flaw::None));
    vec![
        asked("the ends of the space", &ends_of_space()),
        edge("no regions", bytes(&none), Some(records_of(&ends_of_space()))),
        edge("the whole space", bytes(&whole), Some(records_of(&for_both.concat()))),
        edge("64 regions", bytes(&most), Some(records_of(&rows))),
    ]
}

/// Every length that a cut record can have, as the first record and behind others (N24).
fn cut_records() -> Vec<EdgeAccess> {
    let bytes = records_of(&ends_of_space());
    let mut edges = Vec::new();
    for whole in [0, 1, 9, 10] {
        for cut in 1..QUERY_BYTES {
            let length = QUERY_BYTES * whole + cut;
            edges.push(edge(&format!("{length} bytes"), Some(image()), Some(bytes[..length].to_vec())));
        }
    }
    edges
}

/// So many bytes of queries.
fn filled(length: usize) -> Vec<u8> {
    let round = records_of(&ends_of_space());
    round.iter().copied().cycle().take(length).collect()
}

/// Files about the greatest length (N25).
fn lengths() -> Vec<EdgeAccess> {
    let most = MAX_QUERIES_BYTES;
    let lengths = [most - 10, most - 9, most - 1, most, most + 1, most + 9, most + 10, 65_536, 2_000_000];
    lengths
        .into_iter()
        .map(|length| edge(&format!("{length} bytes of queries"), Some(image()), Some(filled(length))))
        .collect()
}

/// Images with each fault, beside queries, none, and too many.
fn refused_images(random: &mut Random) -> Vec<EdgeAccess> {
    let mut edges = Vec::new();
    for fault in FAULTS {
        let image = faulty_image(random, fault);
        edges.push(edge(&format!("fault {fault}"), Some(image.clone()), Some(filled(200))));
        if fault % 4 == 0 {
            edges.push(edge(&format!("fault {fault} without queries"), Some(image.clone()), None));
            let long = Some(filled(MAX_QUERIES_BYTES + 1));
            edges.push(edge(&format!("fault {fault} and too many queries"), Some(image), long));
        }
    }
    let behind = [image(), vec![4; 100_000]].concat();
    edges.push(edge("image with 100,000 bytes behind it", Some(behind), Some(filled(200))));
    edges.push(edge("no image and too many queries", None, Some(filled(MAX_QUERIES_BYTES + 1))));
    edges
}
