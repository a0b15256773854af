//! Folders through the program `access`: the fixed ones first, then random ones.

use crate::access::folder::AccessFolder;
use crate::compare::child::CommandLine;
use crate::compare::difference::Subject;
use crate::compare::files::Workplace;
use crate::compare::stream::Trouble;
use crate::core::flaw::Flaw;
use crate::coverage::access::AccessCoverage;
use crate::edges::access::edge_accesses;
use crate::generate::access::generated_access;

/// The program to compare, and how many random folders it gets.
pub struct AccessPlan {
    pub command: CommandLine,
    pub folders: usize,
}

/// Compares every folder of a seed. Answers what was reached.
pub fn compare_accesses(plan: &AccessPlan, place: &Workplace, seed: u64) -> Result<AccessCoverage, Trouble> {
    let mut coverage = AccessCoverage::default();
    for edge in edge_accesses(seed) {
        coverage.observe(&edge.folder);
        compare_access(&plan.command, place, &edge.title, edge.folder)?;
    }
    for number in 0..plan.folders {
        let folder = generated_access(seed, number);
        coverage.observe(&folder);
        compare_access(&plan.command, place, &format!("folder {number}"), folder)?;
    }
    Ok(coverage)
}

fn compare_access(
    command: &CommandLine,
    place: &Workplace,
    title: &str,
    folder: AccessFolder,
) -> Result<(), Trouble> {
    place.fill(|path| folder.write_into(path))?;
    let expected = folder.answers(Flaw::None);
    place.compare(command, expected, format!("{title}, program access"), || Subject::Access(folder))
}
