//! What the folders of access queries reached, and which of the points they have to reach are missing.

use crate::access::folder::AccessFolder;
use crate::access::grants::{Grants, END_OF_SPACE};
use crate::access::query::{queries_of, Query};
use crate::core::config::Config;
use crate::core::flaw::Flaw;
use crate::core::limits::{MAX_QUERIES_BYTES, QUERY_BYTES};
use crate::core::region::{Region, EXECUTE, READ, WAY_EXECUTE, WAY_READ};
use crate::coverage::cases::never_reached;
use crate::coverage::marks::marks;
use crate::coverage::query_view::{bytes_covered, covers, touches, View};
use crate::image::read::read_image;

marks! {
    AccessMark:
    /// N22, N25
    NoFiles = "access: no files",
    /// N8, N25
    NoImage = "access: no image, but queries",
    /// N25
    NoQueries = "access: no file of queries",
    /// N23
    EmptyQueries = "access: file of queries without a byte",
    /// N5, N25
    RefusedImage = "access: refused image with queries",
    /// N25
    Largest = "access: 60,000 bytes of queries",
    /// N25
    LongByOne = "access: 60,001 bytes of queries",
    /// N25
    LongByTen = "access: 60,010 bytes of queries",
    /// N25
    LongAndRefused = "access: more than 60,000 bytes, refused image",
    /// N24
    CutFirst = "access: first record cut",
    /// N24
    CutAtMost = "access: cut after 5,999 queries",
    /// H11
    WithoutRegions = "access: no regions: no",
    /// H10
    VmNext = "access: the VM behind the last one: no",
    /// H10
    VmLast = "access: VM 255: no",
    /// H10
    VmAndNothing = "access: no such VM, length 0: no",
    /// H10
    WayZero = "access: way 0: no",
    /// H10
    WayFour = "access: way 4: no",
    /// H10
    WayLast = "access: way 255: no",
    /// H10
    WayAndNothing = "access: no such way, length 0: no",
    /// H10
    NothingInside = "access: length 0 at a byte that is granted: yes",
    /// H10
    NothingOutside = "access: length 0 at a byte that is not: yes",
    /// H10
    NothingAtEnd = "access: length 0 at the last byte of the space: yes",
    /// H10
    EndOfSpace = "access: up to the last byte of the space: yes",
    /// H10
    EndOfSpaceNot = "access: up to the last byte of the space: no",
    /// H10
    PastByOne = "access: one byte past the end of the space, all others granted: no",
    /// H10
    PastAndRound = "access: past the end of the space, 0 granted too: no",
    /// H9
    WholeRegion = "access: a whole region: yes",
    /// H9
    LastByte = "access: the last byte of a region alone: yes",
    /// H9
    OneBefore = "access: from one byte before the bytes granted: no",
    /// H9
    OneBehind = "access: to one byte behind the bytes granted: no",
    /// H9
    Adjoining = "access: across two adjoining regions: yes",
    /// H9
    Overlapping = "access: across two overlapping regions: yes",
    /// H9
    ThreeRegions = "access: across three regions: yes",
    /// H8, H9
    MixedRead = "access: read across permissions 1 and 2: yes",
    /// H8, H9
    MixedWrite = "access: write across permissions 1 and 2: no",
    /// H9
    Gap = "access: across a gap of one byte: no",
    /// H9
    InnerRegion = "access: behind a region that lies in a longer one: yes",
    /// H9
    ForeignOnly = "access: granted to another VM only: no",
}

#[derive(Clone, Debug)]
pub struct AccessCoverage {
    pub folders: u64,
    /// The queries answered in all folders.
    pub queries: u64,
    marks: [u64; AccessMark::COUNT],
    /// H8: queries whose range lies in regions of one permission, by the permission and the way.
    permissions: [[u64; 3]; 3],
    /// H8, H9: queries that end one byte behind a region that allows their way, by the same.
    beyond: [[u64; 3]; 3],
    /// N24: files that end inside a record, by the bytes of it that are there.
    cuts: [u64; QUERY_BYTES],
}

impl Default for AccessCoverage {
    fn default() -> AccessCoverage {
        let marks = [0; AccessMark::COUNT];
        let (permissions, beyond) = ([[0; 3]; 3], [[0; 3]; 3]);
        AccessCoverage { folders: 0, queries: 0, marks, permissions, beyond, cuts: [0; QUERY_BYTES] }
    }
}

impl AccessCoverage {
    /// Counts what the queries of a folder reach.
    pub fn observe(&mut self, folder: &AccessFolder) {
        self.folders += 1;
        let (bytes, missing) = (folder.query_bytes(), folder.queries.is_none());
        let long = bytes.len() > MAX_QUERIES_BYTES;
        self.test(AccessMark::NoFiles, folder.image.is_none() && missing);
        self.test(AccessMark::NoImage, folder.image.is_none() && !bytes.is_empty());
        match read_image(folder.image_bytes(), Flaw::None) {
            Err(_) => {
                self.test(AccessMark::RefusedImage, folder.image.is_some() && !bytes.is_empty());
                self.test(AccessMark::LongAndRefused, long);
            }
            Ok(config) => {
                self.test(AccessMark::NoQueries, missing);
                self.test(AccessMark::EmptyQueries, !missing && bytes.is_empty());
                self.observe_length(bytes.len());
                if !long {
                    self.observe_queries(&config, bytes);
                }
            }
        }
    }

    fn test(&mut self, mark: AccessMark, condition: bool) {
        self.marks[mark as usize] += u64::from(condition);
    }

    fn observe_length(&mut self, length: usize) {
        self.test(AccessMark::Largest, length == MAX_QUERIES_BYTES);
        self.test(AccessMark::LongByOne, length == MAX_QUERIES_BYTES + 1);
        self.test(AccessMark::LongByTen, length == MAX_QUERIES_BYTES + QUERY_BYTES);
        let (whole, cut) = (length / QUERY_BYTES, length % QUERY_BYTES);
        if length < MAX_QUERIES_BYTES && cut > 0 {
            self.cuts[cut] += 1;
            self.test(AccessMark::CutFirst, whole == 0);
            self.test(AccessMark::CutAtMost, whole == 5_999);
        }
    }

    fn observe_queries(&mut self, config: &Config, bytes: &[u8]) {
        let grants = Grants::of(config, Flaw::None);
        for query in queries_of(bytes, Flaw::None).0 {
            self.queries += 1;
            let view = View { config, query, yes: grants.answer(query) };
            let known_vm = query.vm < config.vm_count;
            let known_way = (WAY_READ..=WAY_EXECUTE).contains(&query.way);
            match (known_vm && known_way, query.length) {
                (false, _) => self.observe_unknown(&view, known_vm),
                (true, 0) => self.observe_nothing(&view),
                (true, _) if view.end() > END_OF_SPACE => self.observe_past(&view),
                _ => self.observe_range(&view),
            }
        }
    }

    /// A VM or a way that there is not.
    fn observe_unknown(&mut self, view: &View, known_vm: bool) {
        let Query { vm, way, length, .. } = view.query;
        self.test(AccessMark::VmNext, vm == view.config.vm_count);
        self.test(AccessMark::VmLast, vm == 255);
        self.test(AccessMark::VmAndNothing, !known_vm && length == 0);
        self.test(AccessMark::WayZero, known_vm && way == 0);
        self.test(AccessMark::WayFour, known_vm && way == 4);
        self.test(AccessMark::WayLast, known_vm && way == 255);
        self.test(AccessMark::WayAndNothing, known_vm && length == 0);
    }

    fn observe_nothing(&mut self, view: &View) {
        let inside = view.grants_byte(view.start());
        self.test(AccessMark::NothingInside, inside);
        self.test(AccessMark::NothingOutside, !inside);
        self.test(AccessMark::NothingAtEnd, view.start() == END_OF_SPACE - 1);
    }

    fn observe_past(&mut self, view: &View) {
        let all_before = view.grants_byte(view.start()) && view.grants_byte(END_OF_SPACE - 1);
        let one = view.end() == END_OF_SPACE + 1;
        self.test(AccessMark::PastByOne, one && all_before && view.starts_in_last_region());
        self.test(AccessMark::PastAndRound, all_before && view.grants_byte(0));
    }

    /// A range with bytes, all of them in the space, of a known VM and in a known way.
    fn observe_range(&mut self, view: &View) {
        let (start, end, yes) = (view.start(), view.end(), view.yes);
        self.test(AccessMark::WithoutRegions, view.config.region_count == 0);
        self.test(AccessMark::EndOfSpace, end == END_OF_SPACE && yes);
        self.test(AccessMark::EndOfSpaceNot, end == END_OF_SPACE && !yes);
        self.observe_permission(view);
        let covering: Vec<&Region> = view.allowing().filter(|region| touches(region, start, end)).collect();
        let whole = covering.iter().any(|region| region.bytes() == (start..end));
        self.test(AccessMark::WholeRegion, whole);
        let ends_region = covering.iter().any(|region| region.bytes().end == end);
        self.test(AccessMark::LastByte, yes && end - start == 1 && ends_region);
        match yes {
            true => self.observe_yes(view, &covering),
            false => self.observe_no(view),
        }
    }

    /// H8: a range inside regions of its VM that all have the same permission.
    fn observe_permission(&mut self, view: &View) {
        let (start, end) = (view.start(), view.end());
        for permission in READ..=EXECUTE {
            let of_it = |region: &&Region| region.permission == permission;
            let inside = view.own().any(|region| of_it(&region) && covers(region, start, end));
            let others = view.own().any(|region| !of_it(&region) && touches(region, start, end));
            if inside && !others {
                self.permissions[usize::from(permission) - 1][usize::from(view.query.way) - 1] += 1;
            }
        }
    }

    fn observe_yes(&mut self, view: &View, covering: &[&Region]) {
        let (start, end) = (view.start(), view.end());
        let alone = covering.iter().any(|region| covers(region, start, end));
        let two = covering.len() == 2 && !alone;
        let overlap = two && covering[0].overlaps(covering[1], Flaw::None);
        self.test(AccessMark::Adjoining, two && !overlap);
        self.test(AccessMark::Overlapping, overlap);
        let needed = (0..covering.len()).all(|left_out| {
            let mut rest = covering.to_vec();
            rest.remove(left_out);
            !bytes_covered(&rest, start, end)
        });
        self.test(AccessMark::ThreeRegions, covering.len() == 3 && needed);
        let permissions: Vec<u8> = covering.iter().map(|region| region.permission).collect();
        let mixed = permissions.contains(&1) && permissions.contains(&2);
        self.test(AccessMark::MixedRead, two && mixed && view.query.way == WAY_READ);
        let inner = view.allowing().any(|region| {
            let around = |outer: &Region| outer.start < region.start && region.last < outer.last;
            region.bytes().end <= start && covering.iter().any(|outer| around(outer))
        });
        self.test(AccessMark::InnerRegion, alone && inner);
    }

    fn observe_no(&mut self, view: &View) {
        let (start, end) = (view.start(), view.end());
        let allowing: Vec<&Region> = view.allowing().collect();
        let granted = |from: u64, to: u64| from < to && bytes_covered(&allowing, from, to);
        self.test(AccessMark::OneBefore, granted(start + 1, end));
        self.test(AccessMark::OneBehind, granted(start, end - 1));
        let left = allowing.iter().filter(|region| region.bytes().end == end - 1 && granted(start, end - 1));
        for region in left {
            self.beyond[usize::from(region.permission) - 1][usize::from(view.query.way) - 1] += 1;
        }
        let readable: Vec<&Region> =
            view.own().filter(|region| region.allows(WAY_READ, Flaw::None)).collect();
        let begins = view.grants_byte(start) || view.grants_byte(end - 1);
        self.test(
            AccessMark::MixedWrite,
            view.query.way == 2 && begins && bytes_covered(&readable, start, end),
        );
        let ends = allowing.iter().map(|region| region.bytes().end);
        let gap = ends.into_iter().any(|at| granted(start, at) && granted(at + 1, end));
        self.test(AccessMark::Gap, gap);
        let foreign = view.config.memory().iter().filter(|region| region.holder != view.query.vm);
        let mut foreign = foreign.filter(|region| region.allows(view.query.way, Flaw::None));
        self.test(AccessMark::ForeignOnly, foreign.any(|region| covers(region, start, end)));
    }

    /// Every point that has to be reached, by name, and how often it was.
    pub fn points(&self) -> Vec<(String, u64)> {
        let point = |mark: AccessMark| (String::from(mark.name()), self.marks[mark as usize]);
        let mut points: Vec<(String, u64)> = AccessMark::ALL.into_iter().map(point).collect();
        for (permission, way) in
            (READ..=EXECUTE).flat_map(|one| (WAY_READ..=WAY_EXECUTE).map(move |way| (one, way)))
        {
            let count = |table: &[[u64; 3]; 3]| table[usize::from(permission) - 1][usize::from(way) - 1];
            let name = format!("access: permission {permission}, way {way}");
            let allowed = Region { permission, ..Region::default() }.allows(way, Flaw::None);
            let answer = if allowed { "yes" } else { "no" };
            points.push((format!("{name}: {answer}"), count(&self.permissions)));
            if allowed {
                points.push((format!("{name}, one byte more: no"), count(&self.beyond)));
            }
        }
        let cuts = self.cuts.iter().enumerate().skip(1);
        points.extend(cuts.map(|(length, count)| (format!("access: record of {length} bytes"), *count)));
        points
    }

    /// The points that were never reached.
    pub fn missing(&self) -> Vec<String> {
        never_reached(self.points())
    }
}
