//! The image reader, fault by fault (rules I7 to I9, I13 and I14), and the points P6 to P8.

mod common;

use common::{region, with_regions, worked_case};
use twin::core::config::Config;
use twin::core::flaw::Flaw;
use twin::generate::case::change_bytes;
use twin::generate::random::Random;
use twin::image::read::{read_image, ImageFault};
use twin::image::write::image_bytes;

fn read(image: &[u8]) -> Result<Config, ImageFault> {
    read_image(image, Flaw::None)
}

fn fault(image: &[u8]) -> (u8, usize) {
    let fault = read(image).expect_err("this image is refused");
    (fault.number, fault.offset)
}

/// The worked image with some bytes put in the place of others.
fn changed(at: usize, bytes: &[u8]) -> Vec<u8> {
    let mut image = worked_case().image;
    image[at..at + bytes.len()].copy_from_slice(bytes);
    image
}

/// An image of one VM with so many slots of one tick, and a tail.
fn with_slots(count: usize, tail: &[u8]) -> Vec<u8> {
    let mut image = vec![1, 1, 0, 2, 0, 0, 0, 0, 0, 0, 0, 0];
    for _ in 0..count {
        image.extend([3, 0, 1, 0]);
    }
    image.extend(tail);
    image
}

/// An image without regions, with as many VMs, slots and ticks as there can be.
fn longest() -> Vec<u8> {
    let mut image = vec![1, 8, 16];
    for vm in 0..8 {
        image.extend([2, vm, 0, 0, 0, 0xff, vm, 0, 0]);
    }
    for slot in 0..64 {
        image.extend([3, slot % 8, 0xe8, 3]);
    }
    image.push(4);
    image
}

/// I8, P6: fault 20 at offset 0.
#[test]
fn p6_the_empty_image_ends_before_its_first_kind() {
    assert_eq!(fault(&[]), (20, 0));
}

/// I7, I8: fault 20 with the offset of the record, for every length of the image.
#[test]
fn every_cut_of_a_good_image_is_20_at_the_record_that_is_cut() {
    let image = worked_case().image;
    let starts = [0, 3, 12, 21, 25, 29, 33];
    for length in 0..image.len() {
        let start = starts.into_iter().rev().find(|start| *start <= length).expect("0 is one of them");
        assert_eq!(fault(&image[..length]), (20, start), "cut at {length}");
    }
    assert!(read(&image).is_ok());
}

/// I6, I8, I9, I13: fault 21, which comes before a body that is cut.
#[test]
fn fault_21_unknown_kinds_and_kinds_out_of_place() {
    for (at, kind) in
        [(0, 2), (0, 3), (0, 4), (0, 0), (3, 1), (3, 3), (3, 4), (12, 4), (21, 1), (21, 2), (25, 5)]
    {
        assert_eq!(fault(&changed(at, &[kind])), (21, at), "kind {kind} at {at}");
    }
    assert_eq!(fault(&[5]), (21, 0));
    assert_eq!(fault(&[1, 1, 0, 9]), (21, 3));
    assert_eq!(fault(&[1, 1, 0, 3]), (21, 3));
}

/// S1, I8: VM counts outside 1 to 8.
#[test]
fn fault_22_counts_of_the_core_record() {
    assert_eq!(fault(&changed(1, &[0])), (22, 0));
    assert_eq!(fault(&changed(1, &[9])), (22, 0));
    assert_eq!(fault(&changed(1, &[255, 255])), (22, 0));
}

/// S2, I8, P8: the greatest queue size and one more.
#[test]
fn p8_queue_size_16_is_read_and_17_is_not() {
    assert_eq!(read(&changed(2, &[16])).expect("legal").queue_size, 16);
    assert_eq!(fault(&changed(2, &[17])), (22, 0));
}

/// S5, I8, I9: fault 23, which comes before the duration.
#[test]
fn fault_23_slot_of_nobody() {
    assert_eq!(fault(&changed(22, &[2])), (23, 21));
    assert_eq!(fault(&changed(22, &[254, 0, 0])), (23, 21));
}

/// S4, I8: fault 24.
#[test]
fn fault_24_spare_slot_that_does_not_last_one_tick() {
    assert_eq!(fault(&changed(31, &[0, 0])), (24, 29));
    assert_eq!(fault(&changed(31, &[2, 0])), (24, 29));
    assert_eq!(fault(&changed(31, &[1, 1])), (24, 29));
}

/// S4, I8, P7: the longest slot and one tick more, and none.
#[test]
fn p7_duration_1000_is_read_and_1001_is_not() {
    let config = read(&changed(23, &[0xe8, 3])).expect("legal");
    assert_eq!(config.slots[0].ticks, 1_000);
    assert_eq!(fault(&changed(23, &[0xe9, 3])), (25, 21));
    assert_eq!(fault(&changed(23, &[0, 0])), (25, 21));
}

/// S3, I8, I9: fault 26, which comes after a body that is cut.
#[test]
fn fault_26_comes_before_the_content_of_the_65th_slot() {
    assert!(read(&with_slots(64, &[4])).is_ok());
    let place = 12 + 4 * 64;
    assert_eq!(fault(&with_slots(65, &[4])), (26, place));
    assert_eq!(fault(&with_slots(64, &[3, 77, 0, 0])), (26, place));
    assert_eq!(fault(&with_slots(64, &[3, 77, 0])), (20, place));
}

/// S6, I8, I9, I13: fault 27, which comes before bytes that follow.
#[test]
fn fault_27_some_vm_has_no_slot() {
    assert_eq!(fault(&changed(26, &[0])), (27, 33));
    assert_eq!(fault(&with_slots(0, &[4])), (27, 12));
    assert_eq!(fault(&with_slots(0, &[3, 255, 1, 0, 4])), (27, 16));
    assert_eq!(fault(&with_slots(0, &[4, 4])), (27, 12));
}

/// I6 to I8, I14: fault 28, however many bytes follow.
#[test]
fn fault_28_is_at_the_first_byte_behind_the_end() {
    for tail in [&[0][..], &[4], &[1, 1, 0], &[0; 400]] {
        let image = [worked_case().image, tail.to_vec()].concat();
        assert_eq!(fault(&image), (28, 34));
    }
}

/// S1 to S4, I3, I15: every size at its greatest, but no region.
#[test]
fn the_longest_image_without_regions_has_332_bytes() {
    let image = longest();
    assert_eq!(image.len(), 332);
    let config = read(&image).expect("legal");
    assert_eq!((config.vm_count, config.queue_size, config.slot_count), (8, 16, 64));
    assert_eq!((config.vms[7].entry, config.vms[7].handler), (7, 0x7ff));
    assert!(config.legal());
}

/// I7, I14: bytes behind 64 slots are judged as those before them, and none behind a 65th slot is.
#[test]
fn bytes_behind_64_slots_change_nothing() {
    let image = longest();
    let slots = &image[..331];
    assert_eq!(fault(&[slots, &[3, 0, 1]].concat()), (20, 331));
    assert_eq!(fault(&[slots, &[5]].concat()), (21, 331));
    for more in [0, 1, 100_000] {
        assert_eq!(fault(&[slots, &[3, 0, 1, 0], &vec![4; more]].concat()), (26, 331));
        assert_eq!(fault(&[&image[..], &vec![4; more + 1]].concat()), (28, 332));
        assert_eq!(fault(&[&image[..], &vec![0; more + 1]].concat()), (28, 332));
    }
}

/// I7: any bytes get an answer, and nothing that stands behind the first fault changes it.
#[test]
fn the_first_fault_of_any_bytes_counts() {
    let mut random = Random::of_case(5, 5);
    let mut faults = [0; 17];
    for _ in 0..4_000 {
        let regions = [region(0, 2, 0x2000, 0x2fff), region(1, 1, 0x2000, 0x2fff)];
        let mut image = image_bytes(&with_regions(&regions), Flaw::None);
        let changes = random.between(0, 3);
        change_bytes(&mut random, &mut image, changes);
        let longer = [&image[..], &random.bytes(1_100)].concat();
        match read(&image) {
            Ok(config) => {
                assert!(config.legal());
                assert_eq!(fault(&longer), (28, image.len()));
            }
            Err(first) => {
                assert!(first.offset <= image.len());
                assert!(first.number == 20 || read(&longer) == Err(first), "{image:?}");
                faults[usize::from(first.number - 20)] += 1;
            }
        }
    }
    assert!(faults.iter().filter(|count| **count > 0).count() > 10, "{faults:?}");
}
