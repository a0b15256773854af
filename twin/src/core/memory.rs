//! The regions of a configuration, and the test whether they are legal (rules H1 to H7).

use crate::core::config::Config;
use crate::core::flaw::Flaw;
use crate::core::limits::MAX_REGIONS_OF_A_VM;
use crate::core::region::{Region, EXECUTE};

impl Config {
    /// The regions in the order of their records (H1), without the empty places behind them.
    pub fn memory(&self) -> &[Region] {
        &self.regions[..usize::from(self.region_count)]
    }

    /// How many regions a VM holds (H5).
    pub fn regions_of(&self, vm: u8) -> usize {
        self.memory().iter().filter(|region| region.holder == vm).count()
    }

    /// Appends a region; there must be a free place.
    pub fn push_region(&mut self, region: Region) {
        self.regions[usize::from(self.region_count)] = region;
        self.region_count += 1;
    }

    /// H2 to H6 of a configuration whose counts are legal.
    pub(crate) fn regions_legal(&self, flaw: Flaw) -> bool {
        let each_legal = self.memory().iter().all(|region| {
            region.holder < self.vm_count && region.permission_is_known(flaw) && region.is_in_order(flaw)
        });
        each_legal
            && (0..self.vm_count).all(|vm| self.regions_of(vm) <= most_regions_of_a_vm(flaw))
            && !self.some_pair(|earlier, later| later.clashes_with(earlier, flaw))
            && !self.too_strict(flaw)
    }

    fn some_pair(&self, test: impl Fn(&Region, &Region) -> bool) -> bool {
        let mut later = self.memory().iter().enumerate();
        later.any(|(index, region)| self.memory()[..index].iter().any(|earlier| test(earlier, region)))
    }

    /// What the wrong twins of this test forget to allow (H3, H5 to H7).
    fn too_strict(&self, flaw: Flaw) -> bool {
        let foreign = |one: &Region, two: &Region| one.holder != two.holder;
        match flaw {
            Flaw::LegalForgetsSharing => {
                self.some_pair(|one, two| foreign(one, two) && one.has_range_of(two, flaw))
            }
            Flaw::LegalForgetsOwnOverlap => {
                self.some_pair(|one, two| !foreign(one, two) && one.overlaps(two, flaw))
            }
            Flaw::LegalForgetsExecute => self.memory().iter().any(|region| region.permission == EXECUTE),
            Flaw::LegalCountsAllRegions => self.memory().len() > MAX_REGIONS_OF_A_VM,
            _ => false,
        }
    }
}

/// H5: how many regions a VM may hold.
pub fn most_regions_of_a_vm(flaw: Flaw) -> usize {
    MAX_REGIONS_OF_A_VM + usize::from(flaw == Flaw::NinthRegionAccepted)
}
