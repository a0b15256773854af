//! The writer of configuration images: rules I1 to I6, I11, I12 and I15.

use crate::core::config::Config;
use crate::core::flaw::Flaw;
use crate::core::region::Region;
use crate::image::read::{KIND_CORE, KIND_END, KIND_REGION, KIND_SLOT, KIND_VM};

/// Writes the image at the front of the buffer and answers its length; or refuses, with every byte
/// of the buffer as it was: 31 for a configuration that is not legal, else 30 for too short a buffer.
pub fn write_image(config: &Config, buffer: &mut [u8], flaw: Flaw) -> Result<usize, u8> {
    if !config.legal_for(flaw) {
        return Err(31);
    }
    let image = image_bytes(config, flaw);
    let front = buffer.get_mut(..image.len()).ok_or(30)?;
    front.copy_from_slice(&image);
    Ok(image.len())
}

/// The records of a configuration in their order (I6). Only the counts have to fit.
pub fn image_bytes(config: &Config, flaw: Flaw) -> Vec<u8> {
    let swap = flaw == Flaw::WriterSwapsBytes;
    let mut image = vec![KIND_CORE, config.vm_count, config.queue_size];
    for vm in &config.vms[..usize::from(config.vm_count)] {
        image.push(KIND_VM);
        push_number(&mut image, &vm.entry.to_le_bytes(), swap);
        push_number(&mut image, &vm.handler.to_le_bytes(), swap);
    }
    let regions = region_records(config, flaw);
    if flaw != Flaw::WriterPutsRegionsLast {
        image.extend(&regions);
    }
    for slot in config.table() {
        image.extend([KIND_SLOT, slot.owner]);
        push_number(&mut image, &slot.ticks.to_le_bytes(), swap);
    }
    if flaw == Flaw::WriterPutsRegionsLast {
        image.extend(&regions);
    }
    image.push(KIND_END);
    image
}

/// The records of the regions, in their order (H1).
fn region_records(config: &Config, flaw: Flaw) -> Vec<u8> {
    let mut regions = match flaw {
        Flaw::WriterLeavesRegionsOut => Vec::new(),
        _ => config.memory().to_vec(),
    };
    if flaw == Flaw::WriterSortsRegions {
        regions.sort_by_key(|region| region.holder);
    }
    let swap = flaw == Flaw::WriterSwapsBytes;
    regions.iter().flat_map(|region| region_record(region, swap)).collect()
}

/// The record of one region (I15).
pub fn region_record(region: &Region, swap: bool) -> Vec<u8> {
    let mut record = vec![KIND_REGION, region.holder, region.permission];
    push_number(&mut record, &region.start.to_le_bytes(), swap);
    push_number(&mut record, &region.last.to_le_bytes(), swap);
    record
}

fn push_number(image: &mut Vec<u8>, low_first: &[u8], swap: bool) {
    if swap {
        image.extend(low_first.iter().rev());
    } else {
        image.extend(low_first);
    }
}
