//! What the folders of the reports reached, and which of the points they have to reach are missing.

use crate::core::config::{Config, SPARE};
use crate::core::flaw::Flaw;
use crate::core::limits::{MAX_LOG_BYTES, MAX_REPORT_LOGS, MAX_VMS};
use crate::core::Core;
use crate::coverage::cases::never_reached;
use crate::coverage::marks::marks;
use crate::image::read::read_image;
use crate::report::figures::{run_log, table_ticks, Ending, TickSeen};
use crate::report::folder::{LogFile, ReportFolder};

marks! {
    ReportMark:
    /// N18
    OneVm = "report: 1 VM",
    /// N18
    EightVms = "report: 8 VMs",
    /// N21
    RefusedImage = "report: refused image with logs",
    /// N8, N21
    NoImage = "report: no image, but logs",
    /// N21
    NoLogs = "report: no logs",
    /// N13
    SixteenLogs = "report: sixteen logs",
    /// N13
    SeventeenLogs = "report: a seventeenth log",
    /// N13
    MissingLog = "report: list ended by a missing log, with later logs present",
    /// N20
    EmptyLog = "report: empty log",
    /// N20
    FolderAsLog = "report: folder in place of a log",
    /// N19
    CutLog = "report: cut log with ticks before the cut",
    /// N19
    CutAtOnce = "report: log cut at its first byte",
    /// N19
    CutThenMore = "report: cut log followed by a log that counts",
    /// N20
    LargestLog = "report: log of 60,000 bytes with ticks",
    /// N20
    LongLog = "report: oversized log",
    /// N20
    LongThenMore = "report: oversized log followed by a log that counts",
    /// N15
    NeverStarted = "report: log that never starts",
    /// N16
    TableTick = "report: table tick",
    /// N16
    SpareTick = "report: spare tick",
    /// N17
    MissedTick = "report: missed tick",
    /// N17
    IdleSpare = "report: idle tick in a spare slot",
    /// N16
    EndedInTick = "report: VM stopped within its tick, and counted",
    /// N15
    RefusedTick = "report: refused tick, not counted",
    /// N15
    RefusedThenMore = "report: refused tick before an accepted one",
    /// N15
    TableAgain = "report: table wrapped around in a log",
}

#[derive(Clone, Debug)]
pub struct ReportCoverage {
    pub folders: u64,
    /// The accepted ticks of all folders.
    pub ticks: u64,
    marks: [u64; ReportMark::COUNT],
}

impl Default for ReportCoverage {
    fn default() -> ReportCoverage {
        ReportCoverage { folders: 0, ticks: 0, marks: [0; ReportMark::COUNT] }
    }
}

impl ReportCoverage {
    /// Counts what the report of a folder reaches.
    pub fn observe(&mut self, folder: &ReportFolder) {
        self.folders += 1;
        let some_log = folder.logs.iter().any(|log| *log != LogFile::Missing);
        match read_image(folder.image_bytes(), Flaw::None) {
            Err(_) => {
                self.test(ReportMark::RefusedImage, some_log && folder.image.is_some());
                self.test(ReportMark::NoImage, some_log && folder.image.is_none());
            }
            Ok(config) => {
                self.test(ReportMark::OneVm, config.vm_count == 1);
                self.test(ReportMark::EightVms, usize::from(config.vm_count) == MAX_VMS);
                self.observe_list(folder);
                self.observe_logs(&config, folder);
            }
        }
    }

    fn test(&mut self, mark: ReportMark, condition: bool) {
        self.marks[mark as usize] += u64::from(condition);
    }

    /// Where the list of logs ends, and what stands behind its end.
    fn observe_list(&mut self, folder: &ReportFolder) {
        let there = |log: &LogFile| *log != LogFile::Missing;
        let listed = folder.logs.iter().take(MAX_REPORT_LOGS).take_while(|log| there(log)).count();
        let later = folder.logs[listed..].iter().take(MAX_REPORT_LOGS - listed).any(there);
        self.test(ReportMark::NoLogs, !folder.logs.iter().any(there));
        self.test(ReportMark::SixteenLogs, listed == MAX_REPORT_LOGS);
        let one_more = folder.logs.get(MAX_REPORT_LOGS).is_some_and(there);
        self.test(ReportMark::SeventeenLogs, one_more && listed == MAX_REPORT_LOGS);
        self.test(ReportMark::MissingLog, later);
        let list = &folder.logs[..listed];
        self.test(ReportMark::FolderAsLog, list.contains(&LogFile::Folder));
        self.test(ReportMark::EmptyLog, list.contains(&LogFile::Bytes(Vec::new())));
    }

    fn observe_logs(&mut self, config: &Config, folder: &ReportFolder) {
        let owners = table_ticks(config);
        let (mut seen_cut, mut seen_long) = (false, false);
        for log in folder.listed() {
            if log.len() > MAX_LOG_BYTES {
                self.test(ReportMark::LongLog, true);
                seen_long = true;
                continue;
            }
            let (ticks, ending) = run_log(&mut Core::fresh(config.clone(), Flaw::None), &log);
            let counts = self.observe_ticks(&ticks, &owners);
            self.test(ReportMark::CutThenMore, seen_cut && counts);
            self.test(ReportMark::LongThenMore, seen_long && counts);
            self.test(ReportMark::CutLog, ending == Ending::Cut && counts);
            let first = log.first().copied().and_then(crate::log::read::event_body_length);
            self.test(ReportMark::CutAtOnce, !log.is_empty() && first.is_none());
            self.test(ReportMark::LargestLog, log.len() == MAX_LOG_BYTES && counts);
            self.test(ReportMark::NeverStarted, !ticks.is_empty() && !counts);
            seen_cut |= ending == Ending::Cut;
        }
    }

    /// The ticks of one log. Answers whether any of them counts.
    fn observe_ticks(&mut self, ticks: &[TickSeen], owners: &[u8]) -> bool {
        let refused = ticks.iter().filter(|tick| tick.refused).count();
        let accepted = ticks.iter().filter(|tick| !tick.refused);
        for (place, tick) in accepted.clone().enumerate() {
            let spare = owners[place % owners.len()] == SPARE;
            self.test(ReportMark::TableTick, !spare && tick.running.is_some());
            self.test(ReportMark::SpareTick, spare && tick.running.is_some());
            self.test(ReportMark::MissedTick, !spare && tick.running.is_none());
            self.test(ReportMark::IdleSpare, spare && tick.running.is_none());
            self.test(ReportMark::EndedInTick, tick.running.is_some() && tick.at_end.is_none());
            self.ticks += 1;
        }
        let count = accepted.count();
        self.test(ReportMark::RefusedTick, refused > 0);
        self.test(ReportMark::RefusedThenMore, refused > 0 && count > 0);
        self.test(ReportMark::TableAgain, count > owners.len());
        count > 0
    }

    /// Every point that has to be reached, by name, and how often it was.
    pub fn points(&self) -> Vec<(String, u64)> {
        let point = |mark: ReportMark| (String::from(mark.name()), self.marks[mark as usize]);
        ReportMark::ALL.into_iter().map(point).collect()
    }

    /// The points that were never reached.
    pub fn missing(&self) -> Vec<String> {
        never_reached(self.points())
    }
}
