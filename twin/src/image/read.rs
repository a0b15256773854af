//! The reader of configuration images: rules I1 to I10 and I13 to I15.

use crate::core::config::{Config, Slot, VmPlace, SPARE};
use crate::core::flaw::Flaw;
use crate::core::limits::{MAX_QUEUE, MAX_SLOTS, MAX_SLOT_TICKS, MAX_VMS};
use crate::core::region::Region;
use crate::image::region_fault::region_fault;

pub const KIND_CORE: u8 = 0x01;
pub const KIND_VM: u8 = 0x02;
pub const KIND_SLOT: u8 = 0x03;
pub const KIND_END: u8 = 0x04;
pub const KIND_REGION: u8 = 0x05;

/// Why an image was refused, and where.
#[derive(Clone, Copy, Debug, PartialEq, Eq)]
pub struct ImageFault {
    pub number: u8,
    pub offset: usize,
}

/// The length of an image record's body, by its kind.
pub fn image_body_length(kind: u8) -> Option<usize> {
    match kind {
        KIND_CORE => Some(2),
        KIND_VM => Some(8),
        KIND_SLOT => Some(3),
        KIND_END => Some(0),
        KIND_REGION => Some(10),
        _ => None,
    }
}

/// Reads a whole image. The first fault from the front is the answer.
pub fn read_image(bytes: &[u8], flaw: Flaw) -> Result<Config, ImageFault> {
    let mut reader = Reader::new(flaw);
    reader.read(bytes)?;
    Ok(reader.config)
}

/// What the records of an image say before its first fault, for those who look at faults.
pub fn config_before_fault(bytes: &[u8]) -> Config {
    let mut reader = Reader::new(Flaw::None);
    let _ = reader.read(bytes);
    reader.config
}

struct Reader {
    config: Config,
    vms_read: u8,
    seen_core: bool,
    flaw: Flaw,
}

impl Reader {
    fn new(flaw: Flaw) -> Reader {
        Reader { config: Config::zero(), vms_read: 0, seen_core: false, flaw }
    }

    /// Takes in record after record, up to the end or the first fault.
    fn read(&mut self, bytes: &[u8]) -> Result<(), ImageFault> {
        let mut at = 0;
        loop {
            let fault = |number| ImageFault { number, offset: at };
            let kind = *bytes.get(at).ok_or(fault(20))?;
            let in_place = self.has_place(kind);
            let length = match image_body_length(kind) {
                Some(length) if in_place || self.flaw == Flaw::BodyBeforeKind => length,
                _ => return Err(fault(21)),
            };
            let body = bytes.get(at + 1..at + 1 + length).ok_or(fault(20))?;
            if !in_place {
                return Err(fault(21));
            }
            self.take(kind, body).map_err(fault)?;
            at += 1 + length;
            if kind == KIND_END {
                return self.finish(bytes.len(), at);
            }
        }
    }

    /// Rules I6, I13 and I15: may a record of this kind stand here?
    fn has_place(&self, kind: u8) -> bool {
        let vms_missing = self.vms_read < self.config.vm_count;
        match kind {
            KIND_CORE => !self.seen_core,
            KIND_VM => self.seen_core && vms_missing,
            KIND_SLOT | KIND_END => self.seen_core && !vms_missing,
            KIND_REGION => self.seen_core && self.region_has_place(vms_missing),
            _ => false,
        }
    }

    /// Rule I15: behind the last VM record and before the first slot.
    fn region_has_place(&self, vms_missing: bool) -> bool {
        let seen_slot = self.config.slot_count > 0;
        match self.flaw {
            Flaw::RegionKindUnknown => false,
            Flaw::RegionBeforeVmAccepted => !seen_slot,
            Flaw::RegionBehindSlotAccepted => !vms_missing,
            _ => !vms_missing && !seen_slot,
        }
    }

    fn take(&mut self, kind: u8, body: &[u8]) -> Result<(), u8> {
        match kind {
            KIND_CORE => self.take_core(body[0], body[1]),
            KIND_VM => {
                let place = VmPlace { entry: number_at(body, 0), handler: number_at(body, 4) };
                self.config.vms[usize::from(self.vms_read)] = place;
                self.vms_read += 1;
                Ok(())
            }
            KIND_SLOT => {
                let ticks = u16::from_le_bytes([body[1], body[2]]);
                self.take_slot(Slot { owner: body[0], ticks })
            }
            KIND_REGION => {
                let (start, last) = (number_at(body, 2), number_at(body, 6));
                self.take_region(Region { holder: body[0], permission: body[1], start, last })
            }
            _ if self.config.every_vm_has_a_slot() => Ok(()),
            _ => Err(27),
        }
    }

    fn take_core(&mut self, vm_count: u8, queue_size: u8) -> Result<(), u8> {
        let counts_fit = (1..=MAX_VMS).contains(&usize::from(vm_count));
        if !counts_fit || usize::from(queue_size) > MAX_QUEUE {
            return Err(22);
        }
        self.config.vm_count = vm_count;
        self.config.queue_size = queue_size;
        self.seen_core = true;
        Ok(())
    }

    fn take_region(&mut self, region: Region) -> Result<(), u8> {
        if let Some(fault) = region_fault(&self.config, &region, self.flaw) {
            return Err(fault);
        }
        self.config.push_region(region);
        Ok(())
    }

    fn take_slot(&mut self, slot: Slot) -> Result<(), u8> {
        let index = usize::from(self.config.slot_count);
        let nobody = slot.owner != SPARE && slot.owner >= self.config.vm_count;
        if nobody && self.flaw == Flaw::SlotNameBeforeCount {
            return Err(23);
        }
        if index >= MAX_SLOTS {
            return Err(26);
        }
        if nobody {
            return Err(23);
        }
        if slot.owner == SPARE && slot.ticks != 1 {
            return Err(24);
        }
        if slot.owner != SPARE && !(1..=MAX_SLOT_TICKS).contains(&slot.ticks) {
            return Err(25);
        }
        self.config.slots[index] = slot;
        self.config.slot_count += 1;
        Ok(())
    }

    /// After the end record, which must be the last byte.
    fn finish(&self, length: usize, at: usize) -> Result<(), ImageFault> {
        if at == length {
            return Ok(());
        }
        let slip = usize::from(self.flaw == Flaw::Fault28OffByOne);
        Err(ImageFault { number: 28, offset: at + slip })
    }
}

fn number_at(body: &[u8], at: usize) -> u32 {
    u32::from_le_bytes([body[at], body[at + 1], body[at + 2], body[at + 3]])
}
