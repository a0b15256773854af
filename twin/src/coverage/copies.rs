//! What the copies of a comparison have to come to (D31 to D37), and how a run shows it.

use std::ops::Range;

use crate::access::grants::Grants;
use crate::access::query::Query;
use crate::core::config::SPARE;
use crate::core::event::{Answer, CopyRequest, Event, Extent};
use crate::core::flaw::Flaw;
use crate::core::limits::{MAX_EXTENTS, MAX_EXTENT_BYTES};
use crate::core::region::{Region, WAY_READ, WAY_WRITE};
use crate::core::window::WindowPlace;
use crate::core::Core;
use crate::coverage::marks::marks;
use crate::log::read::KIND_COPY;

marks! {
    CopyMark:
    /// D34, P17
    CountNone = "copy: count 0 with bad extents",
    /// S10, D33, P17
    CountEight = "copy: count 8, done",
    /// S10, D33, P17
    CountNine = "copy: count 9",
    /// D33
    CountLast = "copy: count 255",
    /// D34, M8, P18
    BadPastCount = "copy: done with a bad extent past the count",
    /// D34, P18
    NothingAnywhere = "copy: length 0 with addresses that are not granted",
    /// D34
    OneByte = "copy: length 1, done",
    /// S10, D34
    Length255 = "copy: length 255, done",
    /// S10, D34, P16
    Length256 = "copy: length 256, done",
    /// S10, D34, P16
    Length257 = "copy: length 257",
    /// D34
    LengthMost = "copy: length 4,294,967,295",
    /// D36, P14
    OverlapForwards = "copy: extent overlaps itself forwards",
    /// D36, P14
    OverlapBackwards = "copy: extent overlaps itself backwards",
    /// D36
    OntoItself = "copy: extent onto itself",
    /// D36, P15
    Chain = "copy: extent takes what an earlier one wrote",
    /// D36
    SameDestination = "copy: two destinations overlap",
    /// H9, D34, P20
    SourceOverRegions = "copy: source over two regions, done",
    /// H9, D34
    DestinationOverRegions = "copy: destination over two regions, done",
    /// D34, P21
    FromReadOnly = "copy: source may be read and not written, done",
    /// D34, P21
    ToReadOnly = "copy: destination in the window may be read and not written",
    /// D34
    SourceForbidden = "copy: source in the window may not be read",
    /// D34
    SourceOfAnother = "copy: source in the window is another VM's",
    /// D32, P19
    SourceHalfOutside = "copy: source granted, half past the window",
    /// D32, P19
    DestinationHalfOutside = "copy: destination granted, half past the window",
    /// D32
    SourceOneBelow = "copy: source granted, one byte before the window",
    /// D32
    DestinationOneBelow = "copy: destination granted, one byte before the window",
    /// D32
    SourceOnePast = "copy: source granted, one byte past the window",
    /// D32
    DestinationOnePast = "copy: destination granted, one byte past the window",
    /// D32
    SourceFarBelow = "copy: source granted, all of it before the window",
    /// D32
    FirstByte = "copy: from the first byte of the window, done",
    /// D32
    LastByte = "copy: to the last byte of the window, done",
    /// H10, D32, M8
    EndOfSpace = "copy: source granted up to the end of the space",
    /// H10, D32, M8
    PastSpace = "copy: source past the end of the space, all before it granted and 0 too",
    /// D34
    BothBad = "copy: source and destination both bad",
    /// D34
    LongAndBad = "copy: extent too long with a bad source",
    /// D34
    BadThenLong = "copy: bad address before an extent that is too long",
    /// D34
    BadThenSource = "copy: bad destination before a bad source of a later extent",
    /// D13, D36
    PendingWaits = "copy: done with a number pending and enabled",
    /// D31, D34
    InSpareSlot = "copy: done in a spare slot",
    /// E13, L4
    RecordCut = "copy: record cut",
}

/// What the copies of all runs reached.
#[derive(Clone, Debug)]
pub struct CopyCoverage {
    marks: [u64; CopyMark::COUNT],
    /// D34, D35, P22: copies whose first bad extent has this index, those before it good.
    failures: [u64; MAX_EXTENTS],
}

impl Default for CopyCoverage {
    fn default() -> CopyCoverage {
        CopyCoverage { marks: [0; CopyMark::COUNT], failures: [0; MAX_EXTENTS] }
    }
}

/// What the running VM may do, and the window.
struct View<'a> {
    core: &'a Core,
    vm: u8,
    grants: Grants,
}

const WINDOW: WindowPlace = WindowPlace::OF_A_LOG;

impl View<'_> {
    fn granted(&self, way: u8, address: u32, length: u32) -> bool {
        self.grants.answer(Query { vm: self.vm, way, address, length })
    }

    fn good(&self, way: u8, address: u32, length: u32) -> bool {
        length == 0 || self.granted(way, address, length) && WINDOW.holds(address, length, Flaw::None)
    }

    fn good_extent(&self, extent: &Extent) -> bool {
        extent.length <= MAX_EXTENT_BYTES
            && self.good(WAY_READ, extent.source, extent.length)
            && self.good(WAY_WRITE, extent.destination, extent.length)
    }

    /// Does one region of the VM that allows the way hold the whole range?
    fn one_region(&self, way: u8, bytes: &Range<u64>) -> bool {
        let own = self.core.config.memory().iter().filter(|region| region.holder == self.vm);
        let mut allowing = own.filter(|region| region.allows(way, Flaw::None));
        allowing.any(|region| covers(region, bytes))
    }
}

fn covers(region: &Region, bytes: &Range<u64>) -> bool {
    region.bytes().start <= bytes.start && bytes.end <= region.bytes().end
}

fn range(address: u32, length: u32) -> Range<u64> {
    u64::from(address)..u64::from(address) + u64::from(length)
}

fn overlap(one: &Range<u64>, two: &Range<u64>) -> bool {
    one.start.max(two.start) < one.end.min(two.end)
}

impl CopyCoverage {
    /// Counts what one event shows, by the core before it.
    pub fn observe(&mut self, before: &Core, event: Event, answer: &Answer) {
        let (Event::Copy(request), 0, Some(vm)) = (event, answer.refusal, before.state.running) else {
            return;
        };
        let view = View { core: before, vm, grants: Grants::of(&before.config, Flaw::None) };
        self.observe_count(&view, &request, answer);
        match answer.notice.code {
            0 => self.observe_done(&view, &request),
            3 | 7 => self.observe_failed(&view, &request),
            _ => {}
        }
    }

    /// A log that ends inside the record of a Copy.
    pub fn observe_cut(&mut self, rest: &[u8]) {
        self.test(CopyMark::RecordCut, rest.first() == Some(&KIND_COPY));
    }

    fn test(&mut self, mark: CopyMark, condition: bool) {
        self.marks[mark as usize] += u64::from(condition);
    }

    fn observe_count(&mut self, view: &View, request: &CopyRequest, answer: &Answer) {
        let done = answer.notice.number == 0;
        let bad = |extent: &Extent| !view.good_extent(extent);
        self.test(CopyMark::CountNone, request.count == 0 && request.extents.iter().any(bad));
        self.test(CopyMark::CountEight, request.count == 8 && done);
        self.test(CopyMark::CountNine, request.count == 9);
        self.test(CopyMark::CountLast, request.count == 255);
        let past = &request.extents[request.in_use().len()..];
        self.test(CopyMark::BadPastCount, done && request.count > 0 && past.iter().any(bad));
    }

    fn observe_done(&mut self, view: &View, request: &CopyRequest) {
        let (state, vm) = (&view.core.state, view.core.vm(view.vm));
        self.test(CopyMark::PendingWaits, vm.deliverable() != 0);
        let spare = view.core.config.slots[usize::from(state.slot)].owner == SPARE;
        self.test(CopyMark::InSpareSlot, spare && request.count > 0);
        for (index, extent) in request.in_use().iter().enumerate() {
            self.observe_extent(view, extent);
            let earlier = request.in_use()[..index].iter();
            let written: Vec<Range<u64>> =
                earlier.map(|extent| range(extent.destination, extent.length)).collect();
            let meets = |bytes: Range<u64>| written.iter().any(|earlier| overlap(earlier, &bytes));
            self.test(CopyMark::Chain, meets(range(extent.source, extent.length)));
            self.test(CopyMark::SameDestination, meets(range(extent.destination, extent.length)));
        }
    }

    /// An extent that was copied.
    fn observe_extent(&mut self, view: &View, extent: &Extent) {
        let Extent { source, destination, length } = *extent;
        if length == 0 {
            let nowhere = !view.granted(WAY_READ, source, 1) && !view.granted(WAY_WRITE, destination, 1);
            return self.test(CopyMark::NothingAnywhere, nowhere);
        }
        self.test(CopyMark::OneByte, length == 1);
        self.test(CopyMark::Length255, length == 255);
        self.test(CopyMark::Length256, length == 256);
        let (from, to) = (range(source, length), range(destination, length));
        let meets = overlap(&from, &to);
        self.test(CopyMark::OverlapForwards, meets && source < destination);
        self.test(CopyMark::OverlapBackwards, meets && source > destination);
        self.test(CopyMark::OntoItself, source == destination);
        self.test(CopyMark::SourceOverRegions, !view.one_region(WAY_READ, &from));
        self.test(CopyMark::DestinationOverRegions, !view.one_region(WAY_WRITE, &to));
        self.test(CopyMark::FromReadOnly, !view.granted(WAY_WRITE, source, length));
        self.test(CopyMark::FirstByte, from.start == WINDOW.addresses().start);
        self.test(CopyMark::LastByte, to.end == WINDOW.addresses().end);
    }

    fn observe_failed(&mut self, view: &View, request: &CopyRequest) {
        let extents = request.in_use();
        let Some(index) = extents.iter().position(|extent| !view.good_extent(extent)) else {
            return;
        };
        self.failures[index] += 1;
        let Extent { source, destination, length } = extents[index];
        self.test(CopyMark::Length257, length == 257);
        self.test(CopyMark::LengthMost, length == u32::MAX);
        let source_good = view.good(WAY_READ, source, length);
        if length > MAX_EXTENT_BYTES {
            return self.test(CopyMark::LongAndBad, !source_good);
        }
        let destination_good = view.good(WAY_WRITE, destination, length);
        self.test(CopyMark::BothBad, !source_good && !destination_good);
        let later = &extents[index + 1..];
        self.test(CopyMark::BadThenLong, later.iter().any(|extent| extent.length > MAX_EXTENT_BYTES));
        let bad_source = |extent: &Extent| !view.good(WAY_READ, extent.source, extent.length);
        self.test(CopyMark::BadThenSource, source_good && later.iter().any(bad_source));
        match source_good {
            false => self.observe_bad_source(view, source, length),
            true => self.observe_bad_destination(view, destination, length),
        }
    }

    fn observe_bad_source(&mut self, view: &View, source: u32, length: u32) {
        let bytes = range(source, length);
        if WINDOW.holds(source, length, Flaw::None) {
            self.test(CopyMark::SourceForbidden, true);
            let others = view.core.config.memory().iter().filter(|region| region.holder != view.vm);
            let mut others = others.filter(|region| region.allows(WAY_READ, Flaw::None));
            return self.test(CopyMark::SourceOfAnother, others.any(|region| covers(region, &bytes)));
        }
        let space = 1 << 32;
        if bytes.end > space {
            let before = view.granted(WAY_READ, source, (space - bytes.start) as u32);
            return self.test(CopyMark::PastSpace, before && view.granted(WAY_READ, 0, 1));
        }
        if view.granted(WAY_READ, source, length) {
            let Range { start, end } = WINDOW.addresses();
            let begins_inside = start <= bytes.start && bytes.start < end;
            self.test(CopyMark::SourceHalfOutside, begins_inside && end + 1 < bytes.end);
            self.test(CopyMark::SourceOneBelow, bytes.start + 1 == start && bytes.end > start);
            self.test(CopyMark::SourceOnePast, begins_inside && bytes.end == end + 1);
            self.test(CopyMark::SourceFarBelow, bytes.end <= start);
            self.test(CopyMark::EndOfSpace, bytes.end == space);
        }
    }

    fn observe_bad_destination(&mut self, view: &View, destination: u32, length: u32) {
        let bytes = range(destination, length);
        let readable = view.granted(WAY_READ, destination, length);
        if WINDOW.holds(destination, length, Flaw::None) {
            return self.test(CopyMark::ToReadOnly, readable);
        }
        if view.granted(WAY_WRITE, destination, length) {
            let Range { start, end } = WINDOW.addresses();
            let begins_inside = start <= bytes.start && bytes.start < end;
            self.test(CopyMark::DestinationHalfOutside, begins_inside && end + 1 < bytes.end);
            self.test(CopyMark::DestinationOneBelow, bytes.start + 1 == start && bytes.end > start);
            self.test(CopyMark::DestinationOnePast, begins_inside && bytes.end == end + 1);
        }
    }

    /// Every point that has to be reached, by name, and how often it was.
    pub fn points(&self) -> Vec<(String, u64)> {
        let point = |mark: CopyMark| (String::from(mark.name()), self.marks[mark as usize]);
        let mut points: Vec<(String, u64)> = CopyMark::ALL.into_iter().map(point).collect();
        for (index, count) in self.failures.iter().enumerate() {
            points.push((format!("copy: extent {index} fails, those before it good"), *count));
        }
        points
    }
}
