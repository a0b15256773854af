//! The faults of a region record, held against the records before it (rules I8 and I9).

use crate::core::config::Config;
use crate::core::flaw::Flaw;
use crate::core::limits::{MAX_REGIONS, MAX_REGIONS_OF_A_VM};
use crate::core::memory::most_regions_of_a_vm;
use crate::core::region::Region;

/// The faults that only a region can have, in the order of I9.
pub const REGION_FAULTS: [u8; 5] = [32, 35, 33, 34, 36];

/// The first fault of a region behind those that the configuration has so far.
pub fn region_fault(config: &Config, region: &Region, flaw: Flaw) -> Option<u8> {
    fault_order(flaw).into_iter().find(|fault| has_fault(config, region, *fault, flaw))
}

/// Which fault counts before which (I9); some wrong twins have another order.
fn fault_order(flaw: Flaw) -> [u8; 5] {
    match flaw {
        Flaw::CountBeforeHolder => [35, 32, 33, 34, 36],
        Flaw::PermissionBeforeCount => [32, 33, 35, 34, 36],
        Flaw::RangeBeforePermission => [32, 35, 34, 33, 36],
        Flaw::OverlapBeforeRange => [32, 35, 33, 36, 34],
        _ => REGION_FAULTS,
    }
}

/// Has a region this fault, whatever others it has?
pub fn has_fault(config: &Config, region: &Region, fault: u8, flaw: Flaw) -> bool {
    match fault {
        32 => {
            let behind_last = u8::from(flaw == Flaw::HolderBehindLastAccepted);
            region.holder >= config.vm_count + behind_last
        }
        35 => has_no_room(config, region.holder, flaw),
        33 => !region.permission_is_known(flaw),
        34 => !region.is_in_order(flaw),
        _ => earlier_regions(config, flaw).iter().any(|earlier| region.clashes_with(earlier, flaw)),
    }
}

/// H5. Eight regions of each of eight VMs are 64, so the room for all (H1) ends with that of the last VM; only
/// wrong twins come to it before.
fn has_no_room(config: &Config, holder: u8, flaw: Flaw) -> bool {
    let count = config.memory().len();
    let every_vm_full = count == MAX_REGIONS_OF_A_VM * usize::from(config.vm_count);
    config.regions_of(holder) >= most_regions_of_a_vm(flaw)
        || count == MAX_REGIONS
        || flaw == Flaw::CountBeforeHolder && every_vm_full
}

fn earlier_regions(config: &Config, flaw: Flaw) -> &[Region] {
    let all = config.memory();
    match flaw {
        Flaw::OnlyNeighbourIsAsked => &all[all.len().saturating_sub(1)..],
        _ => all,
    }
}
