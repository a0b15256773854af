//! Folders through the program `report`: the fixed ones first, then random ones.

use crate::compare::child::CommandLine;
use crate::compare::difference::Subject;
use crate::compare::files::Workplace;
use crate::compare::stream::Trouble;
use crate::core::flaw::Flaw;
use crate::coverage::reports::ReportCoverage;
use crate::edges::reports::edge_reports;
use crate::generate::report::generated_folder;
use crate::report::folder::ReportFolder;

/// The program to compare, and how many random folders it gets.
pub struct ReportPlan {
    pub command: CommandLine,
    pub folders: usize,
}

/// Compares every folder of a seed. Answers what was reached.
pub fn compare_reports(plan: &ReportPlan, place: &Workplace, seed: u64) -> Result<ReportCoverage, Trouble> {
    let mut coverage = ReportCoverage::default();
    for edge in edge_reports(seed) {
        coverage.observe(&edge.folder);
        compare_report(&plan.command, place, &edge.title, edge.folder)?;
    }
    for number in 0..plan.folders {
        let folder = generated_folder(seed, number);
        coverage.observe(&folder);
        compare_report(&plan.command, place, &format!("folder {number}"), folder)?;
    }
    Ok(coverage)
}

fn compare_report(
    command: &CommandLine,
    place: &Workplace,
    title: &str,
    folder: ReportFolder,
) -> Result<(), Trouble> {
    place.fill(|path| folder.write_into(path))?;
    let expected = folder.report(Flaw::None);
    place.compare(command, expected, format!("{title}, program report"), || Subject::Report(folder))
}
