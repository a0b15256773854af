//! Memory regions in an image: the reader fault by fault, the writer, and the legal configuration (H1 to H7,
//! I6, I8, I9, I13 to I15).

mod common;

use std::collections::BTreeSet;

use common::{region, with_regions, worked_case, worked_config};
use twin::core::config::{Config, Slot, VmPlace};
use twin::core::event::Event;
use twin::core::flaw::Flaw;
use twin::core::region::Region;
use twin::core::Core;
use twin::edges::regions::longest_config;
use twin::generate::random::Random;
use twin::image::read::{read_image, ImageFault};
use twin::image::write::{image_bytes, region_record, write_image};

/// Where the first region record of the worked configuration stands.
const FIRST: usize = 21;

fn read(image: &[u8]) -> Result<Config, ImageFault> {
    read_image(image, Flaw::None)
}

fn fault(image: &[u8]) -> (u8, usize) {
    let fault = read(image).expect_err("this image is refused");
    (fault.number, fault.offset)
}

/// The image of the worked configuration with these regions, legal or not.
fn image_with(regions: &[Region]) -> Vec<u8> {
    image_bytes(&with_regions(regions), Flaw::None)
}

/// The fault that the last of some regions has, if it has one; those before it must have none.
fn last_fault(regions: &[Region]) -> Option<u8> {
    let place = FIRST + 11 * (regions.len() - 1);
    read(&image_with(regions)).err().map(|fault| {
        assert_eq!(fault.offset, place, "{regions:?}");
        fault.number
    })
}

/// So many regions of a VM, one behind the other.
fn row(vm: u8, count: u32) -> Vec<Region> {
    let first = 0x1_0000 * (u32::from(vm) + 1);
    (0..count).map(|index| region(vm, 2, first + 16 * index, first + 16 * index + 15)).collect()
}

/// H1, H2, H4, I6, I15: the bytes of a region record, its place, and what is read from it.
#[test]
fn regions_stand_between_the_vms_and_the_slots_in_their_order() {
    let regions = [region(1, 3, 0x0102_0304, 0xfffe_fdfc), region(0, 2, 5, 5), region(1, 1, 6, 9)];
    let image = image_with(&regions);
    let plain = worked_case().image;
    assert_eq!(image[..FIRST], plain[..FIRST]);
    assert_eq!(image[FIRST..FIRST + 11], [5, 1, 3, 4, 3, 2, 1, 0xfc, 0xfd, 0xfe, 0xff]);
    assert_eq!(image[FIRST + 11..FIRST + 22], [5, 0, 2, 5, 0, 0, 0, 5, 0, 0, 0]);
    assert_eq!(image[FIRST + 33..], plain[FIRST..]);
    let config = read(&image).expect("legal");
    assert_eq!((config.region_count, config.memory()), (3, &regions[..]));
    assert!(config.regions[3..].iter().all(|place| *place == Region::default()));
    assert!(config.legal());
}

/// I15: an image without regions is what it was before there were any.
#[test]
fn without_regions_the_worked_image_is_the_same() {
    assert_eq!(image_with(&[]), worked_case().image);
    let config = read(&worked_case().image).expect("legal");
    assert_eq!((config.region_count, config.regions), (0, [Region::default(); 64]));
}

/// H2, I8: fault 32 for each VM that is not in the image.
#[test]
fn fault_32_a_region_of_nobody() {
    for vm in 0..=255 {
        let expected = (vm > 1).then_some(32);
        assert_eq!(last_fault(&[region(vm, 1, 0, 0)]), expected, "VM {vm}");
    }
}

/// H5, I8: eight regions of a VM are read, a ninth is not, whatever the others hold.
#[test]
fn fault_35_a_ninth_region_of_its_vm() {
    assert!(read(&image_with(&row(0, 8))).is_ok());
    assert_eq!(last_fault(&row(0, 9)), Some(35));
    let mixed = [row(0, 4), row(1, 8), row(0, 8)[4..].to_vec()].concat();
    assert_eq!(mixed.len(), 16);
    assert!(read(&image_with(&mixed)).is_ok());
    for vm in [0, 1] {
        let one_more = [&mixed[..], &[region(vm, 1, 0, 0)]].concat();
        assert_eq!(last_fault(&one_more), Some(35));
    }
}

/// H3, I8: fault 33 for each permission but three.
#[test]
fn fault_33_a_permission_that_is_none() {
    for permission in 0..=255 {
        let expected = (!(1..=3).contains(&permission)).then_some(33);
        assert_eq!(last_fault(&[region(0, permission, 0, 0)]), expected, "permission {permission}");
    }
}

/// H4, I8: one byte is a region, and what starts later than it ends is none.
#[test]
fn fault_34_a_region_that_starts_after_its_last_address() {
    let top = u32::MAX;
    for (start, last) in [(0, 0), (top, top), (0, top), (7, 8), (top - 1, top)] {
        assert_eq!(last_fault(&[region(0, 2, start, last)]), None);
    }
    for (start, last) in [(1, 0), (top, 0), (top, top - 1), (0x8000_0000, 0x7fff_ffff), (8, 7)] {
        assert_eq!(last_fault(&[region(0, 2, start, last)]), Some(34));
    }
}

/// H6, I8: fault 36 by the ranges, with one region that may be written on either side.
#[test]
fn fault_36_regions_of_two_vms_that_overlap_and_are_not_the_same() {
    let ranges = [
        (0x1000, 0x1fff, false),
        (0x1000, 0x2000, true),
        (0x2000, 0x2000, true),
        (0x2000, 0x2ffe, true),
        (0x2000, 0x2fff, false),
        (0x2000, 0x3000, true),
        (0x1fff, 0x2fff, true),
        (0x1fff, 0x3000, true),
        (0x2001, 0x2fff, true),
        (0x2001, 0x2ffe, true),
        (0x2fff, 0x2fff, true),
        (0x2fff, 0x3fff, true),
        (0x3000, 0x3fff, false),
        (0, u32::MAX, true),
    ];
    for (start, last, clash) in ranges {
        for (earlier, later) in [(2, 1), (2, 2), (2, 3), (1, 2), (3, 2)] {
            let regions = [region(0, earlier, 0x2000, 0x2fff), region(1, later, start, last)];
            let expected = clash.then_some(36);
            assert_eq!(last_fault(&regions), expected, "{start:x} to {last:x}, {earlier} and {later}");
            let turned = [region(1, later, start, last), region(0, earlier, 0x2000, 0x2fff)];
            assert_eq!(last_fault(&turned), expected, "turned: {start:x} to {last:x}");
        }
    }
}

/// H6, H7: what may overlap: regions that nobody may write, and regions of one VM.
#[test]
fn overlaps_that_are_nobodys_business() {
    for (start, last) in [(0x2000, 0x2fff), (0x2fff, 0x3fff), (0x2001, 0x2002), (0, u32::MAX)] {
        for (earlier, later) in [(1, 1), (1, 3), (3, 1), (3, 3)] {
            let pair = [region(0, earlier, 0x2000, 0x2fff), region(1, later, start, last)];
            assert_eq!(last_fault(&pair), None);
        }
        for (earlier, later) in (1..=3).flat_map(|one| (1..=3).map(move |two| (one, two))) {
            let own = [region(1, earlier, 0x2000, 0x2fff), region(1, later, start, last)];
            assert_eq!(last_fault(&own), None);
        }
    }
}

/// H7: a region may hold entries and handlers, its own VM's and another's, and need not hold any.
#[test]
fn entries_and_handlers_are_not_looked_at() {
    assert_eq!(worked_config().vms[1], VmPlace { entry: 0x2000, handler: 0x2004 });
    for permission in 1..=3 {
        assert_eq!(last_fault(&[region(0, permission, 0x1fff, 0x2004)]), None);
        assert_eq!(last_fault(&[region(1, permission, 0x2001, 0x2003)]), None);
    }
}

/// H6, I7, I8: 36 stands at the later record, also where the two are not neighbours; the first such counts.
#[test]
fn fault_36_is_at_the_later_of_the_two() {
    let far = region(1, 2, 0x9000, 0x9fff);
    let regions = [region(0, 1, 0x2000, 0x2fff), far, far, region(1, 2, 0x2fff, 0x3000)];
    assert_eq!(last_fault(&regions), Some(36));
    let behind = [&regions[..], &[region(0, 0, 1, 0), region(9, 1, 0, 0)]].concat();
    assert_eq!(fault(&image_with(&behind)), (36, FIRST + 33));
}

/// I9: where a region has several faults, the first of 32, 35, 33, 34, 36 counts.
#[test]
fn the_order_of_the_faults_of_a_region() {
    let foreign = region(1, 2, 0x2000, 0x2fff);
    let full = [&[foreign][..], &row(0, 8)].concat();
    let with = |before: &[Region], last: Region| last_fault(&[before, &[last]].concat());
    let backward = |holder, permission| region(holder, permission, 0x2fff, 0x2000);
    assert_eq!(with(&full, backward(2, 0)), Some(32));
    assert_eq!(with(&full, region(2, 2, 0x2fff, 0x3000)), Some(32));
    assert_eq!(with(&full, backward(0, 0)), Some(35));
    assert_eq!(with(&full, region(0, 0, 0, 0)), Some(35));
    assert_eq!(with(&full, backward(0, 1)), Some(35));
    assert_eq!(with(&full, region(0, 1, 0x2fff, 0x3000)), Some(35));
    assert_eq!(with(&[foreign], backward(0, 4)), Some(33));
    assert_eq!(with(&[foreign], region(0, 0, 0x2fff, 0x3000)), Some(33));
    assert_eq!(with(&[foreign], backward(0, 1)), Some(34));
    assert_eq!(with(&[foreign], backward(0, 2)), Some(34));
    assert_eq!(with(&[foreign], region(0, 1, 0x2fff, 0x3000)), Some(36));
}

/// I8, I9: a region record cut at each length is 20, before anything that its bytes could say.
#[test]
fn a_cut_region_is_20() {
    let front = &worked_case().image[..FIRST];
    for record in [region_record(&region(0, 1, 0, 0), false), region_record(&region(200, 0, 1, 0), false)] {
        for length in 1..record.len() {
            assert_eq!(fault(&[front, &record[..length]].concat()), (20, FIRST), "{length} bytes");
        }
    }
    let whole = region_record(&region(0, 1, 0, 0), false);
    assert_eq!(fault(&[front, &whole].concat()), (20, FIRST + 11));
}

/// I6, I9, I13, I15: 21 for a region before the last VM record or behind a slot, whole, faulty or cut; and
/// for other records in the place of a region.
#[test]
fn a_region_out_of_its_place_is_21() {
    let plain = worked_case().image;
    let good = region_record(&region(0, 1, 0, 0), false);
    let bad = region_record(&region(200, 0, 1, 0), false);
    for at in [0, 3, 12, 25, 29, 33] {
        for record in [&good[..], &bad, &good[..1], &good[..10]] {
            assert_eq!(fault(&[&plain[..at], record].concat()), (21, at), "at {at}");
        }
        assert_eq!(fault(&[&plain[..at], &good, &plain[at..]].concat()), (21, at), "at {at}");
    }
    assert_eq!(fault(&[&plain[..], &good].concat()), (28, 34));
    let front = [&plain[..FIRST], &good].concat();
    for kind in [0, 1, 2, 6, 0x10, 255] {
        assert_eq!(fault(&[&front[..], &[kind]].concat()), (21, FIRST + 11), "kind {kind}");
    }
    assert_eq!(fault(&[&front[..], &[4]].concat()), (27, FIRST + 11));
    assert_eq!(fault(&[&front[..], &[4, 5]].concat()), (27, FIRST + 11));
}

/// The longest image and where its slots end.
fn longest() -> (Vec<u8>, usize) {
    let image = image_bytes(&longest_config(), Flaw::None);
    let end = image.len() - 1;
    (image, end)
}

/// S9, H1, H5: eight regions of each of eight VMs, and 64 slots.
#[test]
fn the_longest_image_has_1036_bytes() {
    let (image, end) = longest();
    assert_eq!((image.len(), image[end]), (1_036, 4));
    let config = read(&image).expect("legal");
    assert_eq!((config.vm_count, config.region_count, config.slot_count), (8, 64, 64));
    assert!((0..8).all(|vm| config.regions_of(vm) == 8));
    assert!(config.legal());
}

/// I8, I14: what stands behind 1,036 bytes, and a 65th slot, which ends at 1,039.
#[test]
fn bytes_beyond_the_longest_image_change_nothing() {
    let (image, end) = longest();
    let slots = &image[..end];
    assert_eq!(fault(&[slots, &[3, 0, 1]].concat()), (20, end));
    assert_eq!(fault(&[slots, &[5]].concat()), (21, end));
    for more in [0, 1, 100_000] {
        assert_eq!(fault(&[slots, &[3, 0, 1, 0], &vec![4; more]].concat()), (26, end));
        assert_eq!(fault(&[&image[..], &vec![4; more + 1]].concat()), (28, 1_036));
    }
    let first_slot = 3 + 72 + 704;
    for (vm, number) in [(0, 35), (7, 35), (8, 32), (255, 32)] {
        let record = region_record(&region(vm, 0, 1, 0), false);
        let one_more = [&image[..first_slot], &record, &image[first_slot..]].concat();
        assert_eq!(fault(&one_more), (number, first_slot));
    }
}

/// H1 to H6, I11: each rule broken by itself makes a configuration that is not legal, and the writer says 31.
#[test]
fn the_writer_refuses_regions_that_are_not_legal() {
    let base = || with_regions(&[region(0, 2, 0x2000, 0x2fff), region(1, 1, 0x2000, 0x2fff)]);
    assert!(base().legal());
    let changes: [fn(&mut Config); 11] = [
        |config| config.region_count = 65,
        |config| config.regions[63].last = 1,
        |config| config.regions[2].permission = 1,
        |config| config.region_count = 1,
        |config| config.regions[1].holder = 2,
        |config| config.regions[1].permission = 0,
        |config| config.regions[1].permission = 4,
        |config| config.regions[1].start = 0x3000,
        |config| config.regions[1].start = 0x2fff,
        |config| config.regions[1].last = 0x2000,
        |config| {
            config.region_count = 10;
            config.regions[2..10].fill(region(0, 1, 0, 0));
        },
    ];
    for (index, change) in changes.into_iter().enumerate() {
        let mut config = base();
        change(&mut config);
        assert!(!config.legal(), "change {index}");
        let mut buffer = vec![0x5a; 2_000];
        assert_eq!(write_image(&config, &mut buffer, Flaw::None), Err(31), "change {index}");
        assert!(buffer.iter().all(|byte| *byte == 0x5a), "change {index}");
        assert_eq!(Core::fresh(config, Flaw::None).apply(Event::Start).refusal, 1, "change {index}");
    }
}

/// I11, I12: the lengths about that of an image with regions; the bytes behind it stay.
#[test]
fn the_writer_needs_room_for_the_regions() {
    let config = with_regions(&[region(0, 2, 0x2000, 0x2fff), region(1, 3, 0x3000, 0x3fff)]);
    for length in [0, 34, 55] {
        let mut buffer = vec![0x5a; length];
        assert_eq!(write_image(&config, &mut buffer, Flaw::None), Err(30));
        assert_eq!(buffer, vec![0x5a; length]);
    }
    let mut buffer = [0x5a; 60];
    assert_eq!(write_image(&config, &mut buffer, Flaw::None), Ok(56));
    assert_eq!((&buffer[..56], &buffer[56..]), (&image_bytes(&config, Flaw::None)[..], &[0x5a; 4][..]));
}

/// A random region within a few bytes of both ends of the space, so that every relation of two turns up.
fn tiny_region(random: &mut Random, vms: usize) -> Region {
    let place = |random: &mut Random| match random.percent(80) {
        true => random.below(7) as u32,
        false => u32::MAX - random.below(3) as u32,
    };
    let (one, two) = (place(random), place(random));
    let (start, last) = if random.percent(90) { (one.min(two), one.max(two)) } else { (one, two) };
    let holder = if random.percent(5) { vms } else { random.below(vms) };
    let permission = if random.percent(7) { random.pick(&[0, 4]) } else { random.pick(&[1, 2, 3]) };
    region(holder as u8, permission, start, last)
}

/// The bytes of a region one by one; between the two ends of the space a few stand for all.
fn bytes_of(region: &Region) -> BTreeSet<u32> {
    let all = (0..8).chain([0x8000_0000]).chain(u32::MAX - 3..=u32::MAX);
    all.filter(|byte| region.start <= *byte && *byte <= region.last).collect()
}

/// The fault of a region behind others, straight from the words of I8 and the order of I9.
fn fault_by_bytes(earlier: &[Region], region: &Region, vms: u8) -> Option<u8> {
    let mine = bytes_of(region);
    let clashes = |other: &&Region| {
        let overlap = bytes_of(other).intersection(&mine).next().is_some();
        let written = other.permission == 2 || region.permission == 2;
        let differ = (other.start, other.last) != (region.start, region.last);
        other.holder != region.holder && overlap && written && differ
    };
    let own = earlier.iter().filter(|other| other.holder == region.holder).count();
    match region {
        _ if region.holder >= vms => Some(32),
        _ if own >= 8 => Some(35),
        _ if !matches!(region.permission, 1..=3) => Some(33),
        _ if region.start > region.last => Some(34),
        _ => earlier.iter().any(|other| clashes(&other)).then_some(36),
    }
}

/// H2 to H6, I7 to I9: random rows of regions, read and judged byte by byte.
#[test]
fn the_reader_agrees_with_a_count_of_bytes() {
    let mut random = Random::of_case(31, 1);
    let (mut accepted, mut faults) = (0, [0; 37]);
    for _ in 0..20_000 {
        let count = random.between(1, 4);
        let regions: Vec<Region> = (0..count).map(|_| tiny_region(&mut random, 2)).collect();
        let first = (0..count).find_map(|at| {
            let fault = fault_by_bytes(&regions[..at], &regions[at], 2);
            fault.map(|number| ImageFault { number, offset: FIRST + 11 * at })
        });
        let found = read(&image_with(&regions));
        assert_eq!(found.as_ref().err(), first.as_ref(), "{regions:?}");
        assert_eq!(with_regions(&regions).legal(), first.is_none(), "{regions:?}");
        match first {
            Some(fault) => faults[usize::from(fault.number)] += 1,
            None => accepted += 1,
        }
    }
    assert!(accepted > 500 && [32, 33, 34, 36].iter().all(|fault| faults[*fault] > 300), "{faults:?}");
}

/// H1 to H6, I11, I12: what a legal configuration with regions is written as is read as the same again.
#[test]
fn legal_regions_come_back_from_their_image() {
    let mut counts = [0; 65];
    for number in 0..1_000 {
        let config = twin::generate::image::legal_config(&mut Random::of_case(12, number));
        assert!(config.legal());
        let mut buffer = [0; 1_036];
        let length = write_image(&config, &mut buffer, Flaw::None).expect("legal, and room enough");
        assert_eq!(read(&buffer[..length]), Ok(config.clone()));
        counts[usize::from(config.region_count)] += 1;
    }
    assert!(counts[0] > 300 && counts[1..6].iter().sum::<usize>() > 200, "{counts:?}");
    assert!(counts[9..].iter().sum::<usize>() > 40 && counts[64] > 0, "{counts:?}");
}

/// W1, N10: a run with regions goes on as one without them, and `many` writes them again.
#[test]
fn regions_change_nothing_in_a_run() {
    let case = worked_case();
    let regions = [region(1, 2, 0x9000, 0x9fff), region(0, 3, 0, 15), region(0, 2, 0x9000, 0x9fff)];
    let image = image_with(&regions);
    let text = |image: &[u8]| {
        let text = twin::run::text::many_text(image, &case.log, Flaw::None);
        String::from_utf8(text).expect("ascii")
    };
    let (plain, with) = (text(&case.image), text(&image));
    let (lines, image_line) = with.split_once("image ").expect("accepted");
    assert_eq!(plain.split_once("image ").expect("accepted").0, lines);
    let digits: String = image.iter().map(|byte| format!("{byte:02x}")).collect();
    assert_eq!(image_line, format!("{digits}\n.\n"));
}

/// S7, H1: the slots of a configuration stand apart from its regions.
#[test]
fn regions_leave_the_slots_as_they_are() {
    let config = read(&image_with(&row(1, 8))).expect("legal");
    assert_eq!((config.slot_count, config.slots), (3, worked_config().slots));
    assert_eq!(config.slots[3], Slot::default());
}
