//! The whole comparison: batches through `many`, torn streams, files, reports, access queries, windows, and the
//! count of what was reached.

use std::path::PathBuf;

use crate::compare::accesses::{compare_accesses, AccessPlan};
use crate::compare::child::CommandLine;
use crate::compare::files::{compare_files, special_files, FileCase, FileProgram, Workplace};
use crate::compare::memories::{compare_memories, MemoryPlan};
use crate::compare::reports::{compare_reports, ReportPlan};
use crate::compare::stream::{compare_batch, compare_stream, torn_streams, Trouble};
use crate::coverage::access::AccessCoverage;
use crate::coverage::cases::{never_reached, Coverage};
use crate::coverage::memories::MemoryCoverage;
use crate::coverage::reports::ReportCoverage;
use crate::generate::case::CaseMaker;
use crate::run::frames::Case;

/// How many cases go through one process of `many`.
const BATCH: usize = 500;

/// What to compare.
pub struct Plan {
    pub seed: u64,
    pub cases: usize,
    /// How many of the cases also go through the programs that read files.
    pub files: usize,
    pub many: CommandLine,
    pub file_programs: Vec<FileProgram>,
    pub report: Option<ReportPlan>,
    pub access: Option<AccessPlan>,
    pub memory: Option<MemoryPlan>,
    pub keep: PathBuf,
}

/// What the folders reached, of those programs that are compared.
struct FolderCoverage {
    reports: Option<ReportCoverage>,
    accesses: Option<AccessCoverage>,
    memories: Option<MemoryCoverage>,
}

impl FolderCoverage {
    fn points(&self) -> Vec<(String, u64)> {
        let mut points = self.reports.as_ref().map(ReportCoverage::points).unwrap_or_default();
        points.extend(self.accesses.as_ref().map(AccessCoverage::points).unwrap_or_default());
        points.extend(self.memories.as_ref().map(MemoryCoverage::points).unwrap_or_default());
        points
    }

    /// A line for each of the programs.
    fn lines(&self) -> String {
        let mut text = String::new();
        if let Some(ReportCoverage { folders, ticks, .. }) = &self.reports {
            text += &format!("report: {folders} folders, {ticks} ticks\n");
        }
        if let Some(AccessCoverage { folders, queries, .. }) = &self.accesses {
            text += &format!("access: {folders} folders, {queries} queries\n");
        }
        if let Some(MemoryCoverage { folders, copies, .. }) = &self.memories {
            text += &format!("memlog: {folders} folders, {copies} copies that changed bytes\n");
        }
        text
    }
}

/// Compares everything. Answers the text for the reader, and whether all is well.
pub fn compare(plan: &Plan) -> (String, bool) {
    let maker = CaseMaker::new(plan.seed);
    let mut coverage = Coverage::default();
    let compared = compare_streams(plan, &maker, &mut coverage).and_then(|()| compare_folders(plan, &maker));
    match compared {
        Err(Trouble::Failure(message)) => (format!("twin: {message}\n"), false),
        Err(Trouble::Difference(difference)) => {
            let kept = match difference.keep(&plan.keep, plan.seed) {
                Ok(folder) => format!("  kept in {}\n", folder.display()),
                Err(error) => format!("  cannot keep the files in {}: {error}\n", plan.keep.display()),
            };
            (format!("{}{kept}", difference.report(plan.seed)), false)
        }
        Ok(folders) => summary(plan, &maker, &coverage, &folders),
    }
}

fn compare_streams(plan: &Plan, maker: &CaseMaker, coverage: &mut Coverage) -> Result<(), Trouble> {
    for first in (0..plan.cases).step_by(BATCH) {
        let last = plan.cases.min(first + BATCH);
        let cases: Vec<Case> = (first..last).map(|number| maker.case(number)).collect();
        for case in &cases {
            coverage.observe(case);
        }
        compare_batch(&plan.many, first, &cases)?;
    }
    let whole = maker.case(2);
    for stream in torn_streams(&whole) {
        compare_stream(&plan.many, &stream, &whole)?;
    }
    Ok(())
}

/// The programs that read files. Answers what the reports, the access queries and the windows reached.
fn compare_folders(plan: &Plan, maker: &CaseMaker) -> Result<FolderCoverage, Trouble> {
    let place = Workplace::new();
    let place =
        place.map_err(|error| Trouble::Failure(format!("cannot make a folder for files: {error}")))?;
    compare_file_runs(plan, maker, &place)?;
    let reports = plan.report.as_ref().map(|report| compare_reports(report, &place, plan.seed));
    let reports = reports.transpose()?;
    let accesses = plan.access.as_ref().map(|access| compare_accesses(access, &place, plan.seed));
    let accesses = accesses.transpose()?;
    let memories = plan.memory.as_ref().map(|memory| compare_memories(memory, &place, plan.seed));
    Ok(FolderCoverage { reports, accesses, memories: memories.transpose()? })
}

fn compare_file_runs(plan: &Plan, maker: &CaseMaker, place: &Workplace) -> Result<(), Trouble> {
    for program in &plan.file_programs {
        for files in special_files(&maker.case(2)) {
            compare_files(program, place, &files)?;
        }
        for number in file_numbers(plan) {
            let Case { image, log } = maker.case(number);
            let title = format!("case {number}");
            compare_files(program, place, &FileCase { title, image: Some(image), log: Some(log) })?;
        }
    }
    Ok(())
}

/// So many numbers, spread evenly over the cases.
fn file_numbers(plan: &Plan) -> impl Iterator<Item = usize> + '_ {
    let count = plan.files.min(plan.cases);
    (0..count).map(move |index| index * plan.cases / count)
}

fn summary(plan: &Plan, maker: &CaseMaker, coverage: &Coverage, folders: &FolderCoverage) -> (String, bool) {
    let mut points = coverage.points();
    points.extend(folders.points());
    let mut text = points_text(&points);
    let missing = never_reached(points);
    if !missing.is_empty() {
        text += &format!("twin: {} points were never reached:\n", missing.len());
        for point in missing {
            text += &format!("  {point}\n");
        }
        if !coverage.missing().is_empty() {
            text += &format!("twin: more cases are needed, at least {}\n", maker.edge_count());
        }
        return (text, false);
    }
    for program in &plan.file_programs {
        let special = special_files(&maker.case(2)).len();
        text += &format!("{}: {} runs with files\n", program.name, special + file_numbers(plan).count());
    }
    text += &folders.lines();
    text += &format!("twin: {} cases, {} events, no difference\n", plan.cases, coverage.events);
    (text, true)
}

/// The counts, several to a line.
fn points_text(points: &[(String, u64)]) -> String {
    let mut text = String::new();
    let mut line = String::new();
    for (name, count) in points {
        let entry = format!("{name} = {count}; ");
        if line.len() + entry.len() > 110 {
            text += line.trim_end();
            text.push('\n');
            line.clear();
        }
        line += &entry;
    }
    text + line.trim_end() + "\n"
}
