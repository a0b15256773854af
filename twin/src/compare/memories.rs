//! Folders through the program `memlog`: the fixed ones first, then random ones.

use crate::compare::child::CommandLine;
use crate::compare::difference::Subject;
use crate::compare::files::Workplace;
use crate::compare::stream::Trouble;
use crate::core::flaw::Flaw;
use crate::coverage::memories::MemoryCoverage;
use crate::edges::memories::edge_memories;
use crate::generate::memories::generated_memory;
use crate::memlog::folder::MemoryFolder;

/// The program to compare, and how many random folders it gets.
pub struct MemoryPlan {
    pub command: CommandLine,
    pub folders: usize,
}

/// Compares every folder of a seed. Answers what was reached.
pub fn compare_memories(plan: &MemoryPlan, place: &Workplace, seed: u64) -> Result<MemoryCoverage, Trouble> {
    let mut coverage = MemoryCoverage::default();
    for edge in edge_memories(seed) {
        coverage.observe(&edge.folder);
        compare_memory(&plan.command, place, &edge.title, edge.folder)?;
    }
    for number in 0..plan.folders {
        let folder = generated_memory(seed, number);
        coverage.observe(&folder);
        compare_memory(&plan.command, place, &format!("folder {number}"), folder)?;
    }
    Ok(coverage)
}

fn compare_memory(
    command: &CommandLine,
    place: &Workplace,
    title: &str,
    folder: MemoryFolder,
) -> Result<(), Trouble> {
    place.fill(|path| folder.write_into(path))?;
    let expected = folder.text(Flaw::None);
    place.compare(command, expected, format!("{title}, program memlog"), || Subject::Memory(folder))
}
