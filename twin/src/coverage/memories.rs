//! What the folders of windows reached, and which of the points they have to reach are missing.

use crate::core::event::{CopyRequest, Event, Extent};
use crate::core::flaw::Flaw;
use crate::core::limits::{MAX_LOG_BYTES, WINDOW_BYTES, WINDOW_ROW_BYTES};
use crate::core::window::{Window, WindowPlace};
use crate::core::Core;
use crate::coverage::cases::never_reached;
use crate::coverage::marks::marks;
use crate::image::read::read_image;
use crate::log::read::{read_record, Record};
use crate::memlog::folder::{MemoryFile, MemoryFolder};

marks! {
    MemoryMark:
    /// N8, N26
    NoFiles = "memory: no files",
    /// N8, N28
    NoImage = "memory: no image, but a memory",
    /// N8, N26
    NoLog = "memory: no log",
    /// N26
    NoMemory = "memory: no memory, and a run",
    /// N26
    FolderAsMemory = "memory: folder in place of the memory",
    /// N26
    EmptyMemory = "memory: memory without a byte",
    /// N26
    ShortMemory = "memory: shorter than the window, in the midst of a row",
    /// L6, N26
    FullMemory = "memory: 16,384 bytes",
    /// N26
    LongByOne = "memory: 16,385 bytes",
    /// N28
    RefusedImage = "memory: refused image",
    /// N28
    LongLog = "memory: log too long",
    /// N6, N26
    LargestLog = "memory: log of 60,000 bytes",
    /// N28
    CutAtOnce = "memory: log cut at its first record",
    /// N28
    CutLater = "memory: log cut behind a copy that moved bytes",
    /// N27
    NoRows = "memory: all rows zero",
    /// N27
    AllRows = "memory: no row zero",
    /// N27
    FirstRow = "memory: first row",
    /// N27
    LastRow = "memory: last row",
    /// N27
    ZeroRowBetween = "memory: row of zeros between others",
    /// N27
    RowByFirstByte = "memory: row by its first byte alone",
    /// N27
    RowByLastByte = "memory: row by its last byte alone",
    /// N27, D36
    RowMadeZero = "memory: a row becomes zero",
    /// D36
    Moved = "memory: a copy that changes bytes",
    /// D36, P14
    OverlapForwards = "memory: overlap forwards that changes bytes",
    /// D36, P14
    OverlapBackwards = "memory: overlap backwards that changes bytes",
    /// D36, P15
    Chain = "memory: an extent moves what an earlier one wrote",
    /// D36
    Order = "memory: the order of the extents matters",
    /// D35, M8, P22
    FailsLate = "memory: a failure behind extents that would change bytes",
    /// D35, R1
    RefusedCopy = "memory: refused copy that would change bytes",
    /// D34, D36
    PastCount = "memory: extents past the count that would change bytes",
    /// D36
    SeveralCopies = "memory: three copies that change bytes in a run",
    /// D37
    OtherEvents = "memory: other events behind a copy that changed bytes",
}

#[derive(Clone, Debug)]
pub struct MemoryCoverage {
    pub folders: u64,
    /// The copies that changed a byte, in all folders.
    pub copies: u64,
    marks: [u64; MemoryMark::COUNT],
}

impl Default for MemoryCoverage {
    fn default() -> MemoryCoverage {
        MemoryCoverage { folders: 0, copies: 0, marks: [0; MemoryMark::COUNT] }
    }
}

impl MemoryCoverage {
    /// Counts what the run of a folder reaches.
    pub fn observe(&mut self, folder: &MemoryFolder) {
        self.folders += 1;
        let (no_image, no_log) = (folder.image.is_none(), folder.log.is_none());
        let missing = folder.memory == MemoryFile::Missing;
        self.test(MemoryMark::NoFiles, no_image && no_log && missing);
        self.test(MemoryMark::NoImage, no_image && !missing);
        let Ok(config) = read_image(folder.image_bytes(), Flaw::None) else {
            let bytes = folder.memory_bytes();
            return self.test(MemoryMark::RefusedImage, !no_image && bytes.iter().any(|byte| *byte != 0));
        };
        let (log, memory) = (folder.log_bytes(), folder.memory_bytes());
        if log.len() > MAX_LOG_BYTES {
            return self.test(MemoryMark::LongLog, memory.iter().any(|byte| *byte != 0));
        }
        self.test(MemoryMark::NoLog, no_log);
        self.test(MemoryMark::LargestLog, log.len() == MAX_LOG_BYTES);
        self.observe_memory(&folder.memory, !log.is_empty());
        self.observe_run(&mut Core::fresh(config, Flaw::None), log, Window::of_a_log(memory));
    }

    fn test(&mut self, mark: MemoryMark, condition: bool) {
        self.marks[mark as usize] += u64::from(condition);
    }

    fn observe_memory(&mut self, memory: &MemoryFile, has_events: bool) {
        self.test(MemoryMark::NoMemory, *memory == MemoryFile::Missing && has_events);
        self.test(MemoryMark::FolderAsMemory, *memory == MemoryFile::Folder);
        if let MemoryFile::Bytes(bytes) = memory {
            let length = bytes.len();
            self.test(MemoryMark::EmptyMemory, length == 0);
            let ends_in_row = !length.is_multiple_of(WINDOW_ROW_BYTES);
            self.test(MemoryMark::ShortMemory, length < WINDOW_BYTES && ends_in_row);
            self.test(MemoryMark::FullMemory, length == WINDOW_BYTES);
            self.test(MemoryMark::LongByOne, length == WINDOW_BYTES + 1);
        }
    }

    fn observe_run(&mut self, core: &mut Core, log: &[u8], mut window: Window) {
        let (first, mut at, mut moved) = (window.clone(), 0, 0);
        while let Record::Event(event, next) = read_record(log, at) {
            let before = window.clone();
            let running = core.state.running;
            let answer = core.apply_on(event, &mut window);
            if let Event::Copy(request) = event {
                let done = answer.refusal == 0 && answer.notice.number == 0;
                match (done, answer.refusal, running) {
                    (true, ..) => self.observe_done(&request, &before, &window),
                    (false, 0, Some(_)) => self.observe_failed(&request, &before),
                    _ => self.test(MemoryMark::RefusedCopy, changes(&before, request.in_use())),
                }
                moved += u64::from(before != window);
            } else {
                self.test(MemoryMark::OtherEvents, moved > 0);
            }
            at = next;
        }
        self.copies += moved;
        self.test(MemoryMark::SeveralCopies, moved >= 3);
        self.test(MemoryMark::CutAtOnce, at == 0 && !log.is_empty());
        self.test(MemoryMark::CutLater, at < log.len() && moved > 0);
        self.observe_rows(&first, &window);
    }

    fn observe_done(&mut self, request: &CopyRequest, before: &Window, after: &Window) {
        self.test(MemoryMark::Moved, before != after);
        let past = &request.extents[request.in_use().len()..];
        self.test(MemoryMark::PastCount, changes(after, past));
        let differs = |flaw: Flaw| {
            let mut window = before.clone();
            window.take_copies(request.in_use(), flaw);
            window != *after
        };
        // What the wrong twins make of it shows what the bytes depend on.
        self.test(MemoryMark::OverlapForwards, differs(Flaw::CopiesForwards));
        self.test(MemoryMark::OverlapBackwards, differs(Flaw::CopiesBackwards));
        self.test(MemoryMark::Chain, differs(Flaw::CopiesFromBeforeAll));
        self.test(MemoryMark::Order, differs(Flaw::CopiesLastExtentFirst));
    }

    /// A Copy that ended its VM: would the extents before the bad one have changed a byte?
    fn observe_failed(&mut self, request: &CopyRequest, before: &Window) {
        let extents = request.in_use();
        let inside = |extent: &&Extent| {
            let holds = |address| WindowPlace::OF_A_LOG.holds(address, extent.length, Flaw::None);
            extent.length <= 256 && holds(extent.source) && holds(extent.destination)
        };
        let good: Vec<Extent> = extents.iter().take_while(inside).copied().collect();
        self.test(MemoryMark::FailsLate, good.len() > 1 && changes(before, &good[..1]));
    }

    fn observe_rows(&mut self, first: &Window, last: &Window) {
        let rows: Vec<&[u8]> = last.bytes.chunks(WINDOW_ROW_BYTES).collect();
        let zero = |row: &[u8]| row.iter().all(|byte| *byte == 0);
        let shown: Vec<usize> = (0..rows.len()).filter(|index| !zero(rows[*index])).collect();
        self.test(MemoryMark::NoRows, shown.is_empty());
        self.test(MemoryMark::AllRows, shown.len() == rows.len());
        self.test(MemoryMark::FirstRow, shown.first() == Some(&0));
        self.test(MemoryMark::LastRow, shown.last() == Some(&(rows.len() - 1)));
        self.test(MemoryMark::ZeroRowBetween, shown.windows(2).any(|pair| pair[1] > pair[0] + 1));
        let alone = |place: usize| {
            let of_row = |index: &usize| {
                let row = rows[*index];
                row[place] != 0 && row.iter().filter(|byte| **byte != 0).count() == 1
            };
            shown.iter().any(of_row)
        };
        self.test(MemoryMark::RowByFirstByte, alone(0));
        self.test(MemoryMark::RowByLastByte, alone(WINDOW_ROW_BYTES - 1));
        let mut before = first.bytes.chunks(WINDOW_ROW_BYTES).zip(&rows);
        self.test(MemoryMark::RowMadeZero, before.any(|(was, is)| !zero(was) && zero(is)));
    }

    /// Every point that has to be reached, by name, and how often it was.
    pub fn points(&self) -> Vec<(String, u64)> {
        let point = |mark: MemoryMark| (String::from(mark.name()), self.marks[mark as usize]);
        MemoryMark::ALL.into_iter().map(point).collect()
    }

    /// The points that were never reached.
    pub fn missing(&self) -> Vec<String> {
        never_reached(self.points())
    }
}

/// Would these extents change a byte of the window?
fn changes(window: &Window, extents: &[Extent]) -> bool {
    let mut after = window.clone();
    after.take_copies(extents, Flaw::None);
    after != *window
}
