//! The boundaries of memory regions that a comparison has to reach, and how an image shows them.

use crate::core::config::Config;
use crate::core::flaw::Flaw;
use crate::core::limits::{MAX_REGIONS, MAX_REGIONS_OF_A_VM};
use crate::core::region::{Region, EXECUTE, READ, READ_WRITE};
use crate::coverage::marks::marks;
use crate::image::read::{config_before_fault, ImageFault, KIND_END, KIND_REGION};
use crate::image::region_fault::{has_fault, REGION_FAULTS};

marks! {
    RegionMark:
    /// I15
    NoRegions = "regions: none",
    /// H1
    OneRegion = "regions: 1",
    /// H1
    SixtyFour = "regions: 64",
    /// H5
    EightOfAVm = "regions: 8 of one VM",
    /// I15
    LongestWithout = "regions: none, in an image of 332 bytes",
    /// H4
    SingleByte = "regions: one byte",
    /// H4
    FirstOfSpace = "regions: start 0",
    /// H4
    LastOfSpace = "regions: last address 0xffffffff",
    /// H4
    WholeSpace = "regions: the whole space",
    /// H6
    AdjoinsAbove = "regions: behind the last byte of another VM's, one may be written",
    /// H6
    AdjoinsBelow = "regions: before the first byte of another VM's, one may be written",
    /// H7
    OwnOverlap = "regions: two of one VM overlap, one may be written",
    /// H7
    OwnEqual = "regions: two of one VM with the same range",
    /// H7
    HoldsEntry = "regions: an entry address in another VM's region",
    /// H2, I8
    HolderNext = "fault 32: the VM behind the last one",
    /// H2, I8
    HolderLast = "fault 32: VM 255",
    /// I9
    HolderAndAll = "fault 32: permission and range wrong too",
    /// I9
    HolderWhenFull = "fault 32: behind 64 regions",
    /// I9
    NinthAndPermission = "fault 35: permission wrong too",
    /// I9
    NinthAndRange = "fault 35: range wrong too",
    /// I9
    NinthAndOverlap = "fault 35: overlaps too",
    /// H5, I8
    NinthOfSeveral = "fault 35: regions of other VMs between",
    /// H1, H5, I8
    SixtyFifth = "fault 35: behind 64 regions",
    /// H3, I8
    PermissionZero = "fault 33: permission 0",
    /// H3, I8
    PermissionFour = "fault 33: permission 4",
    /// H3, I8
    PermissionLast = "fault 33: permission 255",
    /// I9
    PermissionAndRange = "fault 33: range wrong too",
    /// H4, I8
    StartsByOneLate = "fault 34: starts one byte after its last address",
    /// I9
    BackwardInside = "fault 34: both ends in another VM's region that may be written",
    /// H6, I8
    TouchesAbove = "fault 36: shares the last byte of the earlier region",
    /// H6, I8
    TouchesBelow = "fault 36: shares the first byte of the earlier region",
    /// H6, I8
    SameStart = "fault 36: same start, another last address",
    /// H6, I8
    SameLast = "fault 36: same last address, another start",
    /// H6, I8
    Inside = "fault 36: inside the earlier region",
    /// H6, I8
    Around = "fault 36: around the earlier region",
    /// H6, I8
    NotTheNeighbour = "fault 36: with a region that is not the one before it",
    /// I15
    BeforeCore = "fault 21: region before the core record",
    /// I15
    BeforeVm = "fault 21: region before the last VM record",
    /// I15
    BehindSlot = "fault 21: region behind a slot",
    /// I9, I15
    CutOutOfPlace = "fault 21: region out of its place, body cut",
    /// I8
    NothingBehind = "fault 20: nothing behind the regions",
    /// I13
    EndBehind = "fault 27: end record right after the regions",
}

/// How many bytes of a region record there can be when it is cut: its kind and up to nine more.
const CUTS: usize = 10;

/// What the regions of all images reached.
#[derive(Clone, Debug)]
pub struct RegionCoverage {
    marks: [u64; RegionMark::COUNT],
    /// H6: accepted pairs of VMs with the same range, by the permissions of the earlier and the later.
    shared: [[u64; 3]; 3],
    /// H7: accepted pairs of VMs that overlap otherwise.
    overlapping: [[u64; 3]; 3],
    /// H6, I8: fault 36, by the same permissions.
    clashing: [[u64; 3]; 3],
    /// I8: region records cut, by the number of bytes that are there.
    cuts: [u64; CUTS],
}

impl Default for RegionCoverage {
    fn default() -> RegionCoverage {
        let (shared, overlapping, clashing) = ([[0; 3]; 3], [[0; 3]; 3], [[0; 3]; 3]);
        RegionCoverage { marks: [0; RegionMark::COUNT], shared, overlapping, clashing, cuts: [0; CUTS] }
    }
}

impl RegionCoverage {
    /// Counts what an image and the reader's answer show.
    pub fn observe(&mut self, image: &[u8], read: &Result<Config, ImageFault>) {
        match read {
            Ok(config) => {
                self.observe_counts(config, image.len());
                for (index, region) in config.memory().iter().enumerate() {
                    self.observe_region(config, region);
                    config.memory()[..index].iter().for_each(|earlier| self.observe_pair(earlier, region));
                }
            }
            Err(fault) => self.observe_fault(image, *fault),
        }
    }

    fn test(&mut self, mark: RegionMark, condition: bool) {
        self.marks[mark as usize] += u64::from(condition);
    }

    fn observe_counts(&mut self, config: &Config, length: usize) {
        let count = config.memory().len();
        let full = |vm| config.regions_of(vm) == MAX_REGIONS_OF_A_VM;
        self.test(RegionMark::NoRegions, count == 0);
        self.test(RegionMark::OneRegion, count == 1);
        self.test(RegionMark::SixtyFour, count == MAX_REGIONS);
        self.test(RegionMark::EightOfAVm, (0..config.vm_count).any(full));
        self.test(RegionMark::LongestWithout, count == 0 && length == 332);
    }

    fn observe_region(&mut self, config: &Config, region: &Region) {
        let (first, last) = (region.start == 0, region.last == u32::MAX);
        self.test(RegionMark::SingleByte, region.start == region.last);
        self.test(RegionMark::FirstOfSpace, first);
        self.test(RegionMark::LastOfSpace, last);
        self.test(RegionMark::WholeSpace, first && last);
        let vms = config.vms[..usize::from(config.vm_count)].iter().enumerate();
        let inside = |entry: u32| (region.start..=region.last).contains(&entry);
        let foreign_entry = vms.into_iter().any(|(vm, place)| {
            vm != usize::from(region.holder) && inside(place.entry) && region.permission != EXECUTE
        });
        self.test(RegionMark::HoldsEntry, foreign_entry);
    }

    /// Two regions that may stand beside each other.
    fn observe_pair(&mut self, earlier: &Region, region: &Region) {
        let some_written = [earlier.permission, region.permission].contains(&READ_WRITE);
        let overlap = region.overlaps(earlier, Flaw::None);
        let same = region.has_range_of(earlier, Flaw::None);
        if earlier.holder == region.holder {
            self.test(RegionMark::OwnOverlap, overlap && !same && some_written);
            return self.test(RegionMark::OwnEqual, same);
        }
        let (before, behind) = (earlier.bytes(), region.bytes());
        self.test(RegionMark::AdjoinsAbove, some_written && behind.start == before.end);
        self.test(RegionMark::AdjoinsBelow, some_written && behind.end == before.start);
        let table = match (same, overlap) {
            (true, _) => &mut self.shared,
            (false, true) => &mut self.overlapping,
            _ => return,
        };
        count_pair(table, earlier, region);
    }

    fn observe_fault(&mut self, image: &[u8], fault: ImageFault) {
        let record = &image[fault.offset.min(image.len())..];
        let kind = record.first().copied();
        let before = config_before_fault(image);
        match (fault.number, kind) {
            (20, None) => self.test(RegionMark::NothingBehind, ends_with_region(&before)),
            (20, Some(KIND_REGION)) => self.cuts[record.len() - 1] += 1,
            (21, Some(KIND_REGION)) => self.observe_place(image, fault.offset, &before),
            (27, Some(KIND_END)) => self.test(RegionMark::EndBehind, ends_with_region(&before)),
            (32..=36, Some(KIND_REGION)) => self.observe_bad_region(record, fault.number, &before),
            _ => {}
        }
    }

    fn observe_place(&mut self, image: &[u8], offset: usize, before: &Config) {
        let vms_end = 3 + 9 * usize::from(before.vm_count);
        self.test(RegionMark::BeforeCore, offset == 0);
        self.test(RegionMark::BeforeVm, (3..vms_end).contains(&offset));
        self.test(RegionMark::BehindSlot, before.slot_count > 0);
        self.test(RegionMark::CutOutOfPlace, image.len() - offset < 11);
    }

    fn observe_bad_region(&mut self, record: &[u8], fault: u8, before: &Config) {
        let number =
            |at: usize| u32::from_le_bytes([record[at], record[at + 1], record[at + 2], record[at + 3]]);
        let region = Region { holder: record[1], permission: record[2], start: number(3), last: number(7) };
        let all: Vec<u8> = REGION_FAULTS
            .into_iter()
            .filter(|number| has_fault(before, &region, *number, Flaw::None))
            .collect();
        let too = |number: u8| all.contains(&number);
        match fault {
            32 => {
                self.test(RegionMark::HolderNext, region.holder == before.vm_count);
                self.test(RegionMark::HolderLast, region.holder == 255);
                self.test(RegionMark::HolderAndAll, too(33) && too(34));
                self.test(RegionMark::HolderWhenFull, before.memory().len() == MAX_REGIONS);
            }
            35 => {
                self.test(RegionMark::NinthAndPermission, too(33));
                self.test(RegionMark::NinthAndRange, too(34));
                self.test(RegionMark::NinthAndOverlap, too(36) && !too(34));
                self.test(RegionMark::NinthOfSeveral, before.memory().len() > MAX_REGIONS_OF_A_VM);
                self.test(RegionMark::SixtyFifth, before.memory().len() == MAX_REGIONS);
            }
            33 => {
                self.test(RegionMark::PermissionZero, region.permission == 0);
                self.test(RegionMark::PermissionFour, region.permission == 4);
                self.test(RegionMark::PermissionLast, region.permission == 255);
                self.test(RegionMark::PermissionAndRange, too(34));
            }
            34 => {
                self.test(RegionMark::StartsByOneLate, region.start - region.last == 1);
                self.test(RegionMark::BackwardInside, too(36));
            }
            _ => self.observe_clash(&region, before.memory()),
        }
    }

    /// The first region that a faulty one clashes with.
    fn observe_clash(&mut self, region: &Region, before: &[Region]) {
        let clash = before.iter().position(|earlier| region.clashes_with(earlier, Flaw::None));
        let Some(index) = clash else {
            return;
        };
        let earlier = &before[index];
        count_pair(&mut self.clashing, earlier, region);
        let starts = region.start.cmp(&earlier.start);
        let lasts = region.last.cmp(&earlier.last);
        self.test(RegionMark::TouchesAbove, region.start == earlier.last && lasts.is_gt());
        self.test(RegionMark::TouchesBelow, region.last == earlier.start && starts.is_lt());
        self.test(RegionMark::SameStart, starts.is_eq());
        self.test(RegionMark::SameLast, lasts.is_eq());
        self.test(RegionMark::Inside, starts.is_gt() && lasts.is_lt());
        self.test(RegionMark::Around, starts.is_lt() && lasts.is_gt());
        self.test(RegionMark::NotTheNeighbour, index + 1 < before.len());
    }

    /// Every point that has to be reached, by name, and how often it was.
    pub fn points(&self) -> Vec<(String, u64)> {
        let mut points: Vec<(String, u64)> = RegionMark::ALL
            .into_iter()
            .map(|mark| (String::from(mark.name()), self.marks[mark as usize]))
            .collect();
        for earlier in READ..=EXECUTE {
            for later in READ..=EXECUTE {
                let count = |table: &[[u64; 3]; 3]| table[usize::from(earlier) - 1][usize::from(later) - 1];
                let name = |what: &str| format!("{what}, permissions {earlier} and {later}");
                points.push((name("regions: the same range shared"), count(&self.shared)));
                match [earlier, later].contains(&READ_WRITE) {
                    true => points.push((name("fault 36"), count(&self.clashing))),
                    false => points.push((name("regions: overlapping"), count(&self.overlapping))),
                }
            }
        }
        let cuts = self.cuts.iter().enumerate();
        points.extend(cuts.map(|(more, count)| (format!("fault 20: region of {} bytes", more + 1), *count)));
        points
    }
}

fn count_pair(table: &mut [[u64; 3]; 3], earlier: &Region, later: &Region) {
    table[usize::from(earlier.permission) - 1][usize::from(later.permission) - 1] += 1;
}

fn ends_with_region(before: &Config) -> bool {
    before.region_count > 0 && before.slot_count == 0
}
