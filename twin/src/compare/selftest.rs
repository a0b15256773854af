//! Shows that the comparison can fail: every wrong twin must be told apart from the right one.

use crate::compare::difference::{first_parting, Parting};
use crate::core::flaw::{Flaw, Wrong};
use crate::generate::access::generated_access;
use crate::generate::case::CaseMaker;
use crate::generate::memories::generated_memory;
use crate::generate::report::generated_folder;
use crate::run::text::many_text;

/// So many cases of runs go with one folder of the reports.
const CASES_TO_A_REPORT: usize = 10;

/// So many cases of runs go with one folder of access queries, which costs little.
const CASES_TO_AN_ACCESS: usize = 2;

/// So many cases of runs go with one folder of a window.
const CASES_TO_A_MEMORY: usize = 2;

/// Where a wrong twin first gave itself away: the case, and the place in its text.
type Discovery = Option<(usize, Parting)>;

/// For every wrong twin the first of so many cases in which it says something else than the right one.
/// A case is made by its number; what it makes answers what a twin with a flaw says about it.
fn discover<Says: Fn(Flaw) -> Vec<u8>>(
    wrong: &Wrong,
    cases: usize,
    make: impl Fn(usize) -> Says,
) -> Vec<Discovery> {
    let mut found: Vec<Discovery> = wrong.iter().map(|_| None).collect();
    for number in 0..cases {
        if found.iter().all(Discovery::is_some) {
            break;
        }
        let says = make(number);
        let right = says(Flaw::None);
        for ((flaw, _), discovery) in wrong.iter().zip(&mut found) {
            if discovery.is_none() {
                let other = says(*flaw);
                *discovery = (other != right).then(|| (number, first_parting(&right, &other)));
            }
        }
    }
    found
}

fn discover_runs(seed: u64, cases: usize) -> Vec<Discovery> {
    let maker = CaseMaker::new(seed);
    discover(&Flaw::WRONG_RUNS, cases, |number| {
        let case = maker.case(number);
        move |flaw| many_text(&case.image, &case.log, flaw)
    })
}

fn discover_reports(seed: u64, folders: usize) -> Vec<Discovery> {
    discover(&Flaw::WRONG_REPORTS, folders, |number| {
        let folder = generated_folder(seed, number);
        move |flaw| folder.report(flaw)
    })
}

fn discover_accesses(seed: u64, folders: usize) -> Vec<Discovery> {
    discover(&Flaw::WRONG_ACCESSES, folders, |number| {
        let folder = generated_access(seed, number);
        move |flaw| folder.answers(flaw)
    })
}

fn discover_memories(seed: u64, folders: usize) -> Vec<Discovery> {
    discover(&Flaw::WRONG_MEMORIES, folders, |number| {
        let folder = generated_memory(seed, number);
        move |flaw| folder.text(flaw)
    })
}

/// Tries every wrong twin: those of runs on so many cases, those of reports, of access queries and of the
/// window on fewer folders. Answers the text for the reader, and whether all were told apart.
pub fn selftest(seed: u64, cases: usize) -> (String, bool) {
    let reports = cases.div_ceil(CASES_TO_A_REPORT);
    let accesses = cases.div_ceil(CASES_TO_AN_ACCESS);
    let memories = cases.div_ceil(CASES_TO_A_MEMORY);
    let tries = [
        tried(&Flaw::WRONG_RUNS, "", ("case", cases), discover_runs(seed, cases)),
        tried(&Flaw::WRONG_REPORTS, " of the report", ("folder", reports), discover_reports(seed, reports)),
        tried(
            &Flaw::WRONG_ACCESSES,
            " of access",
            ("query folder", accesses),
            discover_accesses(seed, accesses),
        ),
        tried(
            &Flaw::WRONG_MEMORIES,
            " of the window",
            ("memory folder", memories),
            discover_memories(seed, memories),
        ),
    ];
    let mut text: String = tries.iter().map(|(text, _)| text.as_str()).collect();
    let told_apart: usize = tries.iter().map(|(_, told_apart)| told_apart).sum();
    let of_folders = Flaw::WRONG_REPORTS.len() + Flaw::WRONG_ACCESSES.len() + Flaw::WRONG_MEMORIES.len();
    let all = Flaw::WRONG_RUNS.len() + of_folders;
    text += &format!("twin: {told_apart} of {all} wrong twins told apart\n");
    (text, told_apart == all)
}

/// What the reader is told about some wrong twins, and how many of them were told apart.
fn tried(wrong: &Wrong, of: &str, (unit, count): (&str, usize), found: Vec<Discovery>) -> (String, usize) {
    let mut text = String::new();
    for ((flaw, what), discovery) in wrong.iter().zip(&found) {
        text += &format!("wrong twin{of} {flaw:?}: {what}\n");
        text += &match discovery {
            Some((number, parting)) => shown(unit, *number, parting),
            None => format!("  NEVER told apart in {count} {unit}s\n"),
        };
    }
    (text, found.iter().flatten().count())
}

fn shown(unit: &str, number: usize, parting: &Parting) -> String {
    let Parting { event, expected_line, got_line, .. } = parting;
    let event = if unit == "case" { format!(", event {event}") } else { String::new() };
    format!("  told apart at {unit} {number}{event}\n  right: {expected_line}\n  wrong: {got_line}\n")
}
