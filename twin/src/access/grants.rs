//! What a configuration grants: for each VM and way the stretches of memory that its regions make together,
//! and the answer to a query (rules H8 to H11).

use std::ops::Range;

use crate::access::query::Query;
use crate::core::config::Config;
use crate::core::flaw::Flaw;
use crate::core::limits::MAX_VMS;
use crate::core::region::{Region, WAY_EXECUTE, WAY_READ};

/// One byte behind the last of the 32-bit space.
pub const END_OF_SPACE: u64 = 1 << 32;

/// Bytes without a gap. Two stretches of the same VM and way neither overlap nor adjoin.
pub type Stretch = Range<u64>;

/// The number of ways.
const WAYS: usize = 3;

/// The answers of one configuration to every query.
#[derive(Clone, Debug)]
pub struct Grants {
    legal: bool,
    vm_count: u8,
    regions: usize,
    /// By VM, and by way from 0.
    stretches: [[Vec<Stretch>; WAYS]; MAX_VMS],
    flaw: Flaw,
}

impl Grants {
    pub fn of(config: &Config, flaw: Flaw) -> Grants {
        let legal = config.legal();
        let regions = if legal { config.memory() } else { &[] };
        let mut stretches: [[Vec<Stretch>; WAYS]; MAX_VMS] = Default::default();
        for (vm, ways) in stretches.iter_mut().enumerate() {
            for (way, list) in (WAY_READ..=WAY_EXECUTE).zip(ways) {
                *list = stretches_of(regions, vm as u8, way, flaw);
            }
        }
        Grants { legal, vm_count: config.vm_count, regions: regions.len(), stretches, flaw }
    }

    /// The bytes that a VM may use in a way, as stretches from the lowest on; none for what there is not.
    pub fn stretches(&self, vm: u8, way: u8) -> &[Stretch] {
        let ways = self.stretches.get(usize::from(vm));
        ways.and_then(|ways| ways.get(usize::from(way).wrapping_sub(1))).map_or(&[], Vec::as_slice)
    }

    /// The answer to a query, yes or no; what comes first is in the order of H10.
    pub fn answer(&self, query: Query) -> bool {
        let Query { vm, way, address, length } = self.taken_as(query);
        if !self.legal {
            return false;
        }
        if vm >= self.vm_count {
            return length == 0 && self.flaw == Flaw::LengthZeroBeforeVm;
        }
        if !(WAY_READ..=WAY_EXECUTE).contains(&way) {
            return length == 0 && self.flaw == Flaw::LengthZeroBeforeWay;
        }
        let stretches = &self.stretches[usize::from(vm)][usize::from(way - WAY_READ)];
        let range = u64::from(address)..u64::from(address) + u64::from(length);
        match length {
            0 => self.answer_of_nothing(stretches, range.start),
            _ => self.answer_of_bytes(stretches, range),
        }
    }

    /// What a wrong twin makes of a VM or a way that there is not (H10).
    fn taken_as(&self, query: Query) -> Query {
        match self.flaw {
            Flaw::VmBehindLastIsLast if query.vm == self.vm_count => {
                Query { vm: query.vm.saturating_sub(1), ..query }
            }
            Flaw::UnknownWayReads if !(WAY_READ..=WAY_EXECUTE).contains(&query.way) => {
                Query { way: WAY_READ, ..query }
            }
            _ => query,
        }
    }

    /// H10: a length of 0 is yes.
    fn answer_of_nothing(&self, stretches: &[Stretch], address: u64) -> bool {
        match self.flaw {
            Flaw::LengthZeroIsNo => false,
            Flaw::LengthZeroNeedsRegion => stretches.iter().any(|stretch| stretch.contains(&address)),
            _ => true,
        }
    }

    /// H9 to H11: a range with at least one byte.
    fn answer_of_bytes(&self, stretches: &[Stretch], range: Range<u64>) -> bool {
        let granted = |start: u64, end: u64| {
            stretches.iter().any(|stretch| stretch.start <= start && end <= stretch.end)
        };
        let past = range.end > END_OF_SPACE;
        match self.flaw {
            Flaw::RangeWraps | Flaw::SumsWrap if past => {
                granted(range.start, END_OF_SPACE) && granted(0, range.end - END_OF_SPACE)
            }
            Flaw::RangeIsCutOff if past => granted(range.start, END_OF_SPACE),
            Flaw::EndOfSpaceIsPast if range.end == END_OF_SPACE => false,
            Flaw::NoRegionsGrantAll if self.regions == 0 => !past,
            Flaw::FirstByteCounts => !past && granted(range.start, range.start + 1),
            Flaw::EndsCount => {
                !past && granted(range.start, range.start + 1) && granted(range.end - 1, range.end)
            }
            _ => !past && granted(range.start, range.end),
        }
    }
}

/// The regions of a VM that allow a way, sorted and grown together (H8, H9).
fn stretches_of(regions: &[Region], vm: u8, way: u8, flaw: Flaw) -> Vec<Stretch> {
    let own = |region: &&Region| region.holder == vm || flaw == Flaw::AnyHolderGrants;
    let allowed = regions.iter().filter(own).filter(|region| region.allows(way, flaw));
    let mut single: Vec<Stretch> = allowed
        .map(|region| match flaw {
            Flaw::LastByteLeftOut => u64::from(region.start)..u64::from(region.last),
            _ => region.bytes(),
        })
        .collect();
    if flaw == Flaw::OneRegionCovers {
        return single;
    }
    single.sort_by_key(|stretch| (stretch.start, stretch.end));
    grown_together(single, flaw)
}

/// Sorted stretches, with those made one that overlap or adjoin.
fn grown_together(sorted: Vec<Stretch>, flaw: Flaw) -> Vec<Stretch> {
    let mut grown: Vec<Stretch> = Vec::new();
    for next in sorted {
        match grown.last_mut() {
            Some(last) if goes_on(last, &next, flaw) => {
                let inner = flaw == Flaw::InnerRegionShortens;
                last.end = if inner { next.end } else { last.end.max(next.end) };
            }
            _ => grown.push(next),
        }
    }
    grown
}

/// Does a stretch go on in the next one, without a gap?
fn goes_on(stretch: &Stretch, next: &Stretch, flaw: Flaw) -> bool {
    match flaw {
        Flaw::AdjoiningIsGap => next.start < stretch.end,
        Flaw::GapIsClosed => next.start <= stretch.end + 1,
        _ => next.start <= stretch.end,
    }
}
