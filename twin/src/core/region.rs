//! A memory region: its holder, its permission and its range, and when two of them clash (rules H2 to H8).

use std::ops::Range;

use crate::core::flaw::Flaw;

/// The permissions (H3). The ways of the access query have the numbers 1, 2 and 3 as well (H8).
pub const READ: u8 = 1;
pub const READ_WRITE: u8 = 2;
pub const EXECUTE: u8 = 3;

/// The ways of an access query (H8).
pub const WAY_READ: u8 = 1;
pub const WAY_WRITE: u8 = 2;
pub const WAY_EXECUTE: u8 = 3;

#[derive(Clone, Copy, Debug, Default, PartialEq, Eq)]
pub struct Region {
    pub holder: u8,
    pub permission: u8,
    pub start: u32,
    pub last: u32,
}

impl Region {
    /// The bytes of a region, both ends in it (H4).
    pub fn bytes(&self) -> Range<u64> {
        u64::from(self.start)..u64::from(self.last) + 1
    }

    /// Is this an empty place (H1)?
    pub fn is_zero(&self) -> bool {
        u32::from(self.holder) | u32::from(self.permission) | self.start | self.last == 0
    }

    /// H3
    pub fn permission_is_known(&self, flaw: Flaw) -> bool {
        match (flaw, self.permission) {
            (Flaw::PermissionZeroAccepted, 0) | (Flaw::PermissionFourAccepted, 4) => true,
            (_, permission) => (READ..=EXECUTE).contains(&permission),
        }
    }

    /// H4: does it start no later than it ends?
    pub fn is_in_order(&self, flaw: Flaw) -> bool {
        match flaw {
            Flaw::SingleByteRefused | Flaw::LastAddressExcluded => self.start < self.last,
            _ => self.start <= self.last,
        }
    }

    /// H6: does some byte lie in both?
    #[inline]
    pub fn overlaps(&self, other: &Region, flaw: Flaw) -> bool {
        let (one, two) = (self, other);
        match flaw {
            Flaw::SharedByteIsApart => one.start.max(two.start) < one.last.min(two.last),
            Flaw::LastAddressExcluded => one.start < two.last && two.start < one.last,
            Flaw::AdjoiningOverlaps => {
                u64::from(one.start) <= two.bytes().end && u64::from(two.start) <= one.bytes().end
            }
            _ => one.start <= two.last && two.start <= one.last,
        }
    }

    /// H6: are both ends the same?
    pub fn has_range_of(&self, other: &Region, flaw: Flaw) -> bool {
        let (starts, lasts) = (self.start == other.start, self.last == other.last);
        match flaw {
            Flaw::EqualStartsAreEqualRanges => starts,
            Flaw::EqualLastsAreEqualRanges => lasts,
            Flaw::SharedRangeRefused => false,
            _ => starts && lasts,
        }
    }

    /// H6, I8: may this region not stand beside an earlier one?
    #[inline]
    pub fn clashes_with(&self, earlier: &Region, flaw: Flaw) -> bool {
        self.overlaps(earlier, flaw)
            && self.must_agree_with(earlier, flaw)
            && !self.has_range_of(earlier, flaw)
    }

    /// H6: are the two of different VMs, and may one of them be written?
    fn must_agree_with(&self, earlier: &Region, flaw: Flaw) -> bool {
        let (earlier_written, written) = (earlier.permission == READ_WRITE, self.permission == READ_WRITE);
        let some_written = match flaw {
            Flaw::OnlyLaterIsWritten => written,
            Flaw::OnlyEarlierIsWritten => earlier_written,
            Flaw::BothAreWritten => written && earlier_written,
            Flaw::ReadOverlapRefused => true,
            _ => written || earlier_written,
        };
        some_written && (self.holder != earlier.holder || flaw == Flaw::OwnOverlapRefused)
    }

    /// H8: does the region's permission allow this way?
    pub fn allows(&self, way: u8, flaw: Flaw) -> bool {
        match (flaw, self.permission, way) {
            (Flaw::ReadAllowsExecute, READ, WAY_EXECUTE) => true,
            (Flaw::ReadAllowsWrite, READ, WAY_WRITE) => true,
            (Flaw::ExecuteAllowsRead, EXECUTE, WAY_READ) => true,
            (Flaw::WriteForbidsRead, READ_WRITE, WAY_READ) => false,
            (_, READ, _) => way == WAY_READ,
            (_, READ_WRITE, _) => way == WAY_READ || way == WAY_WRITE,
            (_, EXECUTE, _) => way == WAY_EXECUTE,
            _ => false,
        }
    }
}
