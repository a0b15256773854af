//! The access query, rule by rule (H8 to H11), and what is printed for a file of queries (N22 to N25).

mod common;

use common::{region, with_regions, worked_case};
use twin::access::grants::Grants;
use twin::access::query::{queries_of, records_of, Query};
use twin::access::text::access_text;
use twin::core::config::Config;
use twin::core::flaw::Flaw;
use twin::core::region::Region;
use twin::generate::access::generated_access;
use twin::generate::random::Random;
use twin::image::read::read_image;
use twin::image::write::image_bytes;

fn query(vm: u8, way: u8, address: u32, length: u32) -> Query {
    Query { vm, way, address, length }
}

fn answer(config: &Config, vm: u8, way: u8, address: u32, length: u32) -> bool {
    Grants::of(config, Flaw::None).answer(query(vm, way, address, length))
}

/// Is the answer of VM 0, who holds these regions and reads, yes?
fn reads(regions: &[Region], address: u32, length: u32) -> bool {
    answer(&with_regions(regions), 0, 1, address, length)
}

fn text(image: &[u8], queries: &[u8]) -> String {
    String::from_utf8(access_text(image, queries, Flaw::None)).expect("ascii")
}

/// VM 0 may read from 0x2000 to 0x2fff.
fn small_image() -> Vec<u8> {
    image_bytes(&with_regions(&[region(0, 1, 0x2000, 0x2fff)]), Flaw::None)
}

/// A query that is yes for the small image, and one that is no.
const YES: Query = Query { vm: 0, way: 1, address: 0x2000, length: 4096 };
const NO: Query = Query { vm: 0, way: 1, address: 0x2000, length: 4097 };

/// H3, H8: each permission with each way.
#[test]
fn h8_what_each_permission_allows() {
    let allowed = [[true, false, false], [true, true, false], [false, false, true]];
    for (permission, ways) in (1..=3).zip(allowed) {
        let config = with_regions(&[region(0, permission, 0x2000, 0x2fff)]);
        for (way, expected) in (1..=3).zip(ways) {
            let found = answer(&config, 0, way, 0x2000, 4096);
            assert_eq!(found, expected, "permission {permission}, way {way}");
        }
    }
}

/// H4, H9: the bytes of one region, its first and its last, and those beside it.
#[test]
fn h9_one_region_and_the_bytes_beside_it() {
    let one = [region(0, 1, 0x2000, 0x2fff)];
    for (address, length) in [(0x2000, 1), (0x2fff, 1), (0x2000, 4096), (0x2001, 4095), (0x27ff, 2)] {
        assert!(reads(&one, address, length), "{address:x} {length}");
    }
    for (address, length) in
        [(0x1fff, 1), (0x1fff, 2), (0x3000, 1), (0x2fff, 2), (0x2000, 4097), (0x1fff, 4098)]
    {
        assert!(!reads(&one, address, length), "{address:x} {length}");
    }
    let byte = [region(0, 1, 5, 5)];
    assert_eq!([4, 5, 6].map(|address| reads(&byte, address, 1)), [false, true, false]);
}

/// H9: bytes in several regions, adjoining in either order, overlapping, one inside another.
#[test]
fn h9_the_bytes_may_lie_in_several_regions() {
    let (low, high) = (region(0, 1, 0x2000, 0x2fff), region(0, 2, 0x3000, 0x3fff));
    for pair in [[low, high], [high, low]] {
        assert!(reads(&pair, 0x2000, 0x2000) && reads(&pair, 0x2fff, 2));
        assert!(!reads(&pair, 0x1fff, 2) && !reads(&pair, 0x3fff, 2));
    }
    let overlapping = [region(0, 1, 0x2800, 0x3fff), low];
    assert!(reads(&overlapping, 0x2000, 0x2000));
    let inside = [region(0, 1, 0x2000, 0x4fff), region(0, 2, 0x3000, 0x30ff)];
    assert!(reads(&inside, 0x2000, 0x3000) && reads(&inside, 0x3080, 0x1000));
    let three = [region(0, 1, 0x30, 0x3f), region(0, 1, 0x10, 0x1f), region(0, 2, 0x20, 0x2f)];
    assert!(reads(&three, 0x10, 0x30) && !reads(&three, 0x10, 0x31));
}

/// H9: one byte between two regions that nobody grants.
#[test]
fn h9_a_gap_of_one_byte_is_no() {
    let gap = [region(0, 1, 0x2000, 0x2fff), region(0, 1, 0x3001, 0x3fff)];
    assert!(reads(&gap, 0x2000, 0x1000) && reads(&gap, 0x3001, 0xfff));
    assert!(!reads(&gap, 0x2000, 0x2000) && !reads(&gap, 0x2fff, 3) && !reads(&gap, 0x3000, 1));
}

/// H8, H9: regions side by side with different permissions answer for the ways that both allow.
#[test]
fn h9_every_byte_needs_a_region_that_allows_the_way() {
    let config = with_regions(&[
        region(0, 1, 0x2000, 0x2fff),
        region(0, 2, 0x3000, 0x3fff),
        region(0, 3, 0x4000, 0x4fff),
    ]);
    assert_eq!([1, 2, 3].map(|way| answer(&config, 0, way, 0x2f00, 0x200)), [true, false, false]);
    assert_eq!([1, 2, 3].map(|way| answer(&config, 0, way, 0x3f00, 0x200)), [false, false, false]);
    let both = with_regions(&[region(0, 2, 0x2000, 0x2fff), region(0, 3, 0x2000, 0x2fff)]);
    assert_eq!([1, 2, 3].map(|way| answer(&both, 0, way, 0x2000, 16)), [true; 3]);
}

/// H2, H9: a region of another VM grants nothing, a shared one what its own record says.
#[test]
fn h9_only_regions_of_the_vm_count() {
    let config = with_regions(&[region(0, 2, 0x2000, 0x2fff), region(1, 1, 0x2000, 0x2fff)]);
    assert_eq!([1, 2].map(|way| answer(&config, 0, way, 0x2000, 16)), [true, true]);
    assert_eq!([1, 2].map(|way| answer(&config, 1, way, 0x2000, 16)), [true, false]);
    let foreign = with_regions(&[region(1, 1, 0x2000, 0x2fff)]);
    assert!(!answer(&foreign, 0, 1, 0x2000, 1) && answer(&foreign, 1, 1, 0x2000, 1));
}

/// H10: a configuration that is not legal answers no, for a length of 0 too.
#[test]
fn h10_a_configuration_that_is_not_legal_is_no() {
    let clash = with_regions(&[region(0, 2, 0x2000, 0x2fff), region(1, 1, 0x2000, 0x2ffe)]);
    let mut two_ticks = with_regions(&[region(0, 1, 0x2000, 0x2fff)]);
    two_ticks.slots[2].ticks = 2;
    for config in [Config::zero(), clash, two_ticks] {
        assert!(!config.legal());
        assert!(!answer(&config, 0, 1, 0x2000, 16) && !answer(&config, 0, 1, 0x2000, 0));
    }
}

/// H10: a VM or a way that there is not is no, before a length of 0 is yes.
#[test]
fn h10_unknown_vms_and_ways_come_before_the_length() {
    let config = with_regions(&[region(0, 1, 0, u32::MAX), region(1, 3, 0, u32::MAX)]);
    for number in 0..=255 {
        for length in [0, 1] {
            let reading = number == 0 || number == 1 && length == 0;
            assert_eq!(answer(&config, number, 1, 0x2000, length), reading, "VM {number}");
            let way = number == 1 || (2..=3).contains(&number) && length == 0;
            assert_eq!(answer(&config, 0, number, 0x2000, length), way, "way {number}");
        }
    }
    assert!(!answer(&config, 2, 0, 0, 0));
}

/// H10, H11: a length of 0 is yes at any address, also without regions.
#[test]
fn h10_a_length_of_0_is_yes() {
    for config in [with_regions(&[]), with_regions(&[region(0, 1, 0x2000, 0x2fff)])] {
        for address in [0, 0x1fff, 0x2000, 0x3000, u32::MAX] {
            assert!((1..=3).all(|way| answer(&config, 1, way, address, 0)), "{address:x}");
        }
    }
}

/// H10: up to the last byte of the space is in it, one byte more is not, and nothing goes on at 0.
#[test]
fn h10_the_end_of_the_space() {
    let all = [region(0, 1, 0, u32::MAX)];
    for (address, most) in [(u32::MAX, 1), (u32::MAX - 15, 16), (1, u32::MAX), (0x8000_0000, 0x8000_0000)] {
        assert!(reads(&all, address, most), "{address:x}");
        assert!(most == u32::MAX || !reads(&all, address, most + 1), "{address:x}");
    }
    assert!(reads(&all, 0, u32::MAX) && !reads(&all, 2, u32::MAX) && !reads(&all, u32::MAX, u32::MAX));
    let both_ends = [region(0, 1, 0, 15), region(0, 1, u32::MAX - 15, u32::MAX)];
    assert!(reads(&both_ends, u32::MAX - 15, 16) && !reads(&both_ends, u32::MAX - 15, 17));
    assert!(!reads(&both_ends, u32::MAX, 2) && !reads(&both_ends, u32::MAX - 16, 17));
}

/// H11: without regions no byte is granted to anyone.
#[test]
fn h11_without_regions_nothing_is_granted() {
    let config = with_regions(&[]);
    for address in [0, 0x1000, 0x2000, u32::MAX] {
        let ways = (1..=3).flat_map(|way| [0, 1].map(|vm| answer(&config, vm, way, address, 1)));
        assert!(ways.into_iter().all(|granted| !granted), "{address:x}");
    }
}

/// The answer straight from the words of H9 and H10, byte by byte.
fn answer_by_bytes(regions: &[Region], query: Query) -> bool {
    let allows = |permission: u8| matches!((permission, query.way), (1, 1) | (2, 1) | (2, 2) | (3, 3));
    let holds = |byte: u64| {
        let inside = |region: &Region| u64::from(region.start) <= byte && byte <= u64::from(region.last);
        regions.iter().any(|region| region.holder == query.vm && allows(region.permission) && inside(region))
    };
    let first = u64::from(query.address);
    let end = first + u64::from(query.length);
    query.vm < 2
        && (1..=3).contains(&query.way)
        && (query.length == 0 || end <= 1 << 32 && (first..end).all(holds))
}

/// H8 to H11: random regions and ranges near both ends of the space, beside a walk over every byte.
#[test]
fn the_answers_agree_with_a_walk_over_the_bytes() {
    let mut random = Random::of_case(77, 2);
    let place = |random: &mut Random| match random.percent(70) {
        true => random.below(24) as u32,
        false => u32::MAX - random.below(12) as u32,
    };
    let mut counts = [0; 2];
    for round in 0..3_000 {
        // All regions are VM 0's and some may be written, or both VMs hold some and none may be.
        let (vms, permissions): (usize, &[u8]) = if round % 2 == 0 { (1, &[1, 2, 3]) } else { (2, &[1, 3]) };
        let regions: Vec<Region> = (0..random.between(0, 7))
            .map(|_| {
                let (start, size) = (place(&mut random), random.below(9) as u32);
                let (holder, permission) = (random.below(vms) as u8, random.pick(permissions));
                region(holder, permission, start, start.saturating_add(size))
            })
            .collect();
        let config = with_regions(&regions);
        assert!(config.legal());
        let grants = Grants::of(&config, Flaw::None);
        for _ in 0..20 {
            let (vm, way) = (random.pick(&[0, 0, 0, 1, 1, 2]), random.pick(&[0, 1, 1, 1, 2, 2, 3, 3, 4]));
            let asked = query(vm, way, place(&mut random), random.pick(&[0, 1, 2, 3, 5, 8, 13]));
            let expected = answer_by_bytes(&regions, asked);
            assert_eq!(grants.answer(asked), expected, "{regions:?} {asked:?}");
            counts[usize::from(expected)] += 1;
        }
    }
    assert!(counts[0] > 20_000 && counts[1] > 3_000, "{counts:?}");
}

/// H9: the answers of generated folders, beside the same question put region by region.
#[test]
fn the_answers_of_any_folder_agree_with_a_walk_from_region_to_region() {
    let (mut yes, mut all) = (0, 0);
    for number in 0..300 {
        let folder = generated_access(6, number);
        let (Ok(config), true) =
            (read_image(folder.image_bytes(), Flaw::None), folder.query_bytes().len() <= 60_000)
        else {
            continue;
        };
        let grants = Grants::of(&config, Flaw::None);
        for asked in queries_of(folder.query_bytes(), Flaw::None).0 {
            let expected = walked(&config, asked);
            assert_eq!(grants.answer(asked), expected, "folder {number}, {asked:?}");
            (yes, all) = (yes + usize::from(expected), all + 1);
        }
    }
    assert!(all > 10_000 && yes * 5 > all && yes * 5 < all * 4, "{yes} of {all}");
}

/// Goes to the end of a region that holds the next byte, again and again.
fn walked(config: &Config, asked: Query) -> bool {
    let Query { vm, way, address, length } = asked;
    let (mut at, end) = (u64::from(address), u64::from(address) + u64::from(length));
    let known = vm < config.vm_count && (1..=3).contains(&way) && (length == 0 || end <= 1 << 32);
    while known && at < end {
        let next =
            config.memory().iter().filter(|region| region.holder == vm && region.allows(way, Flaw::None));
        match next.filter(|region| region.bytes().contains(&at)).map(|region| region.bytes().end).max() {
            Some(next) => at = next,
            None => return false,
        }
    }
    known
}

/// N22: the ten bytes of a query.
#[test]
fn n22_a_query_has_ten_bytes_low_byte_first() {
    let record = [7, 2, 0x04, 0x03, 0x02, 0x01, 0x0d, 0x0c, 0x0b, 0x0a];
    let asked = query(7, 2, 0x0102_0304, 0x0a0b_0c0d);
    assert_eq!(asked.record(), record);
    assert_eq!(Query::of(record, Flaw::None), asked);
    let bytes = [&record[..], &record, &[1, 2, 3]].concat();
    assert_eq!(queries_of(&bytes, Flaw::None), (vec![asked; 2], &[1u8, 2, 3][..]));
}

/// N12, N23: a line for each query, in order.
#[test]
fn n23_one_line_for_each_query() {
    let image = small_image();
    assert_eq!(text(&image, &records_of(&[YES, NO, NO, YES])), "yes\nno\nno\nyes\n");
    assert_eq!(text(&image, &[]), "");
    assert_eq!(text(&worked_case().image, &records_of(&[YES, NO])), "no\nno\n");
}

/// N24: each length of a record that is cut, as the first and behind others.
#[test]
fn n24_a_cut_record_prints_its_number_from_1() {
    let image = small_image();
    for cut in 1..10 {
        assert_eq!(text(&image, &YES.record()[..cut]), "cut 1\n");
        let bytes = [&records_of(&[YES, NO, YES])[..], &YES.record()[..cut]].concat();
        assert_eq!(text(&image, &bytes), "yes\nno\nyes\ncut 4\n");
    }
    let many = [records_of(&vec![NO; 5_999]), vec![0; 9]].concat();
    assert_eq!(text(&image, &many), "no\n".repeat(5_999) + "cut 6000\n");
}

/// S9, N25: 60,000 bytes are answered; more print one word, whether they divide by ten or not.
#[test]
fn n25_more_than_60_000_bytes_are_long() {
    let image = small_image();
    assert_eq!(text(&image, &records_of(&vec![YES; 6_000])), "yes\n".repeat(6_000));
    for length in [60_001, 60_005, 60_010, 65_536, 1_000_000] {
        assert_eq!(text(&image, &vec![0; length]), "long\n", "{length} bytes");
    }
}

/// N5, N8, N25: a refused image prints its line alone, whatever the queries are.
#[test]
fn n25_the_image_is_judged_first() {
    let image = small_image();
    let longer = [&image[..], &[4]].concat();
    let clash = image_bytes(&with_regions(&[region(0, 2, 0, 9), region(1, 1, 9, 9)]), Flaw::None);
    for queries in [vec![], records_of(&[YES, NO]), vec![0; 7], vec![0; 60_001]] {
        assert_eq!(text(&[], &queries), "config 20 0\n");
        assert_eq!(text(&image[..44], &queries), "config 20 44\n");
        assert_eq!(text(&longer, &queries), "config 28 45\n");
        assert_eq!(text(&clash, &queries), "config 36 32\n");
    }
}
