//! The Copy: what it does to the state (D31, D33), and the checks of its extents (D34, D35).

use crate::access::grants::Grants;
use crate::access::query::Query;
use crate::core::actions::{CODE_EXTENT_TOO_LONG, CODE_NO_ACCESS, CODE_TOO_MANY_EXTENTS};
use crate::core::event::{CopyRequest, Event, Extent, Notice, Outcome};
use crate::core::flaw::Flaw;
use crate::core::limits::{MAX_EXTENTS, MAX_EXTENT_BYTES};
use crate::core::region::{WAY_READ, WAY_WRITE};
use crate::core::state::Standing;
use crate::core::window::WindowPlace;
use crate::core::Core;

/// Why a Copy ends its VM, as notice 3 tells it (A5), and how many extents passed before.
#[derive(Clone, Copy, Debug, PartialEq, Eq)]
pub struct CopyFailure {
    pub code: u8,
    pub data: u32,
    pub passed: usize,
}

/// What is asked of an extent.
#[derive(Clone, Copy, Debug, PartialEq, Eq)]
enum Check {
    Length,
    Source,
    Destination,
}

impl Core {
    pub(crate) fn copy(&mut self, request: &CopyRequest, place: WindowPlace) -> Outcome {
        let Some(vm) = self.state.running else {
            return Outcome::default();
        };
        let before = self.vm(vm).address;
        self.vm_mut(vm).address = request.next;
        let failure = self.copy_failure(vm, request, place);
        let keeps = match failure {
            Some(_) => Flaw::EndingCopyKeepsAddress,
            None => Flaw::DoneCopyKeepsAddress,
        };
        if self.flaw == keeps {
            self.vm_mut(vm).address = before;
        }
        match failure {
            Some(failure) => self.end_by_copy(vm, failure),
            None if self.flaw == Flaw::CopyDelivers => {
                Outcome { delivered: self.deliver(vm), ..Outcome::default() }
            }
            None => Outcome::default(),
        }
    }

    /// As a Fault with the failure's code and data (D33, D34).
    fn end_by_copy(&mut self, vm: u8, failure: CopyFailure) -> Outcome {
        let CopyFailure { code, data, .. } = failure;
        let queue = self.state.queue;
        let standing = match self.flaw {
            Flaw::CopyStopsItsVm => Standing::Stopped,
            _ => Standing::InError,
        };
        let outcome = self.end_vm(vm, standing, Notice { number: 3, vm, code, data });
        match self.flaw {
            Flaw::CopyKeepsEntries => self.state.queue = queue,
            Flaw::CopyKeepsRunning => self.state.running = Some(vm),
            Flaw::CopyTellsNone => return Outcome { removed: 0, ..outcome },
            Flaw::CopyAnswersOne => return Outcome { result: 1, ..outcome },
            _ => {}
        }
        outcome
    }

    /// The first failure of a Copy by this VM, if it has one (D33, D34).
    pub fn copy_failure(&self, vm: u8, request: &CopyRequest, place: WindowPlace) -> Option<CopyFailure> {
        let most = match self.flaw {
            Flaw::CopyCountSevenIsMost => MAX_EXTENTS - 1,
            Flaw::CopyCountNineTaken => MAX_EXTENTS + 1,
            _ => MAX_EXTENTS,
        };
        if usize::from(request.count) > most {
            let data = u32::from(request.count);
            return Some(CopyFailure { code: CODE_TOO_MANY_EXTENTS, data, passed: 0 });
        }
        let vm = if self.flaw == Flaw::CopyAsksVmZero { 0 } else { vm };
        let grants = Grants::of(&self.config, self.flaw);
        let checker = Checker { vm, grants, place, flaw: self.flaw };
        checker.failure_of(self.looked_at(request))
    }

    /// The extents that are checked: those that the count names.
    fn looked_at<'a>(&self, request: &'a CopyRequest) -> &'a [Extent] {
        let in_use = request.in_use();
        match self.flaw {
            Flaw::CopyLooksPastCount => &request.extents,
            Flaw::CopyChecksFirstOnly => &in_use[..in_use.len().min(1)],
            Flaw::CopyLastUnchecked if in_use.len() > 1 => &in_use[..in_use.len() - 1],
            _ => in_use,
        }
    }

    /// The extents whose bytes an event moves, in this state: none of a Copy that is refused or that ends its
    /// VM (D35), and none of any other event (D37).
    pub(crate) fn extents_to_move(&self, event: Event, place: WindowPlace) -> Vec<Extent> {
        let (Event::Copy(request), Some(vm)) = (event, self.state.running) else {
            return Vec::new();
        };
        if self.refusal_of(event) != 0 {
            return Vec::new();
        }
        match self.copy_failure(vm, &request, place) {
            None if self.flaw == Flaw::CopiesPastCount => request.extents.to_vec(),
            None => request.in_use().to_vec(),
            Some(failure) if self.flaw == Flaw::CopiesBeforeAllChecked => {
                request.in_use()[..failure.passed].to_vec()
            }
            Some(_) => Vec::new(),
        }
    }
}

/// Checks extents for one VM.
struct Checker {
    vm: u8,
    grants: Grants,
    place: WindowPlace,
    flaw: Flaw,
}

impl Checker {
    /// The first failure of some extents, one after the other (D34); some wrong twins go through them twice.
    fn failure_of(&self, extents: &[Extent]) -> Option<CopyFailure> {
        for checks in rounds(self.flaw) {
            for (passed, extent) in extents.iter().enumerate() {
                let failed = checks.iter().find(|check| !self.passes(**check, extent));
                if let Some(check) = failed {
                    let (code, data) = self.told(*check, extent);
                    return Some(CopyFailure { code, data, passed });
                }
            }
        }
        None
    }

    fn passes(&self, check: Check, extent: &Extent) -> bool {
        if extent.length == 0 && self.flaw != Flaw::CopyLengthZeroIsChecked {
            return true;
        }
        let (source_way, destination_way) = match self.flaw {
            Flaw::CopyWaysSwapped => (WAY_WRITE, WAY_READ),
            Flaw::CopyWritesSource => (WAY_WRITE, WAY_WRITE),
            Flaw::CopyReadsDestination => (WAY_READ, WAY_READ),
            _ => (WAY_READ, WAY_WRITE),
        };
        match check {
            Check::Length => extent.length <= self.most_bytes(),
            Check::Source => self.may_use(source_way, extent.source, extent.length, check),
            Check::Destination => self.may_use(destination_way, extent.destination, extent.length, check),
        }
    }

    fn most_bytes(&self) -> u32 {
        match self.flaw {
            Flaw::CopyLength255IsMost => MAX_EXTENT_BYTES - 1,
            Flaw::CopyLength257Taken => MAX_EXTENT_BYTES + 1,
            _ => MAX_EXTENT_BYTES,
        }
    }

    /// May the VM use the whole range in this way, and does it lie in the window?
    fn may_use(&self, way: u8, address: u32, length: u32, check: Check) -> bool {
        let granted = self.grants.answer(Query { vm: self.vm, way, address, length });
        let in_window = self.place.holds(address, length, self.flaw);
        match (self.flaw, check) {
            (Flaw::CopyAccessIgnored, _) => in_window,
            (Flaw::WindowOfSourceIgnored, Check::Source) => granted,
            (Flaw::WindowOfDestinationIgnored, Check::Destination) => granted,
            _ => granted && in_window,
        }
    }

    /// The code and the data that tell of a failed check (A5).
    fn told(&self, check: Check, extent: &Extent) -> (u8, u32) {
        let Extent { source, destination, length } = *extent;
        match (self.flaw, check) {
            (Flaw::CopyLengthIsCode3, Check::Length) => (CODE_NO_ACCESS, length),
            (Flaw::CopyLengthTellsSource, Check::Length) => (CODE_EXTENT_TOO_LONG, source),
            (Flaw::CopyDestinationTellsSource, Check::Destination) => (CODE_NO_ACCESS, source),
            (_, Check::Length) => (CODE_EXTENT_TOO_LONG, length),
            (_, Check::Source) => (CODE_NO_ACCESS, source),
            (_, Check::Destination) => (CODE_NO_ACCESS, destination),
        }
    }
}

/// Which checks go together through all extents, in which order (D34).
fn rounds(flaw: Flaw) -> &'static [&'static [Check]] {
    use Check::{Destination, Length, Source};
    match flaw {
        Flaw::CopyDestinationFirst => &[&[Length, Destination, Source]],
        Flaw::CopySourceBeforeLength => &[&[Source, Length, Destination]],
        Flaw::CopyLengthsFirst => &[&[Length], &[Source, Destination]],
        Flaw::CopySourcesFirst => &[&[Length, Source], &[Destination]],
        _ => &[&[Length, Source, Destination]],
    }
}
