//! The comparison itself, through real processes: it passes on a right program and fails on wrong ones.

use std::path::PathBuf;
use std::process::Command;

use twin::compare::difference::first_parting;
use twin::compare::selftest::selftest;
use twin::core::flaw::Flaw;
use twin::coverage::cases::{never_reached, Coverage};
use twin::coverage::reports::ReportCoverage;
use twin::edges::reports::edge_reports;
use twin::generate::case::CaseMaker;
use twin::report::folder::ReportFolder;

const TWIN: &str = env!("CARGO_BIN_EXE_twin");

struct Outcome {
    text: String,
    well: bool,
}

fn compare(name: &str, many: &str, runlog: &str, cases: &str) -> (Outcome, PathBuf) {
    let patience = if many.starts_with("sleep") { "1" } else { "60" };
    compare_with(name, &["--cases", cases, "--many", many, "--runlog", runlog, "--patience", patience])
}

/// A comparison of reports, by right programs otherwise.
fn compare_reports(name: &str, report: &str, cases: &str, patience: &str) -> (Outcome, PathBuf) {
    let (many, runlog) = (format!("{TWIN} many"), format!("{TWIN} run"));
    let runs = ["--cases", cases, "--many", &many, "--runlog", &runlog];
    compare_with(
        name,
        &[&runs[..], &["--report", report, "--reports", "60", "--patience", patience]].concat(),
    )
}

fn compare_with(name: &str, options: &[&str]) -> (Outcome, PathBuf) {
    let keep = PathBuf::from(env!("CARGO_TARGET_TMPDIR")).join(name);
    let _ = std::fs::remove_dir_all(&keep);
    let output = Command::new(TWIN)
        .args(["compare", "--seed", "4", "--files", "20"])
        .args(options)
        .arg("--keep")
        .arg(&keep)
        .output()
        .expect("the twin starts");
    let text = String::from_utf8(output.stdout).expect("ascii");
    (Outcome { text, well: output.status.success() }, keep)
}

/// No rule: the comparison with a right program.
#[test]
fn the_twin_agrees_with_itself_and_reaches_every_point() {
    let many = format!("{TWIN} many");
    let (outcome, keep) = compare("right", &many, &format!("{TWIN} run"), "500");
    assert!(outcome.well, "{}", outcome.text);
    let last = outcome.text.lines().last().expect("some lines");
    assert!(last.starts_with("twin: 500 cases, ") && last.ends_with(" events, no difference"), "{last}");
    assert!(outcome.text.contains("runlog: 32 runs with files"));
    assert!(!outcome.text.contains("report"), "no reports were asked for");
    assert!(!outcome.text.contains("access: "), "no access queries were asked for");
    assert!(!outcome.text.contains("memory: "), "no windows were asked for");
    assert!(!keep.exists());
}

/// No rule: the comparison with a right report.
#[test]
fn the_reports_of_the_twin_agree_with_themselves_and_reach_every_point() {
    let (outcome, keep) = compare_reports("right-report", &format!("{TWIN} report"), "500", "60");
    assert!(outcome.well, "{}", outcome.text);
    let folders = 60 + edge_reports(4).len();
    assert!(outcome.text.contains(&format!("\nreport: {folders} folders, ")), "{}", outcome.text);
    assert!(outcome.text.contains("report: sixteen logs = "), "{}", outcome.text);
    assert!(outcome.text.ends_with(" events, no difference\n"), "{}", outcome.text);
    assert!(!keep.exists());
}

/// N13, N18: a report that skips a missing log differs, and so is shown.
#[test]
fn a_wrong_report_is_reported_and_its_files_are_kept() {
    let report = format!("{TWIN} report --wrong SkipsMissingLog");
    let (outcome, keep) = compare_reports("wrong-report", &report, "1", "60");
    assert!(!outcome.well);
    let shown = "difference: seed 4, log 2 missing, program report\n  \
                 expected:\n    0 8 1 0\n    1 1 0 1\n    2 2 0 0\n    idle 2\n    ticks 14\n  \
                 got:\n    0 14 2 0\n    1 2 0 2\n    2 4 0 0\n    idle 4\n    ticks 26\n";
    assert!(outcome.text.starts_with(shown), "{}", outcome.text);
    let kept = keep.join("seed-4-log-2-missing-program-report");
    let edges = edge_reports(4);
    let edge = edges.iter().find(|edge| edge.title == "log 2 missing").expect("it is one of them");
    assert_eq!(ReportFolder::read(&kept), edge.folder);
    let expected = std::fs::read(kept.join("expected")).expect("kept");
    assert_eq!(Command::new(TWIN).arg("report").arg(&kept).output().expect("it starts").stdout, expected);
    assert!(std::fs::read(kept.join("got")).expect("kept").ends_with(b"idle 4\nticks 26\n"));
}

/// N13 to N20: a twin with one of these broken is told from the right one.
#[test]
fn every_wrong_report_is_found_by_the_fixed_folders() {
    let edges = edge_reports(4);
    for (flaw, what) in Flaw::WRONG_REPORTS {
        let apart = edges.iter().any(|edge| edge.folder.report(flaw) != edge.folder.report(Flaw::None));
        assert!(apart, "{what}");
    }
}

/// No rule: the comparison with programs that are no reports.
#[test]
fn reports_that_say_nothing_something_else_or_never_end_are_reported() {
    for (report, patience) in [("true", "60"), ("echo idle 0", "60"), ("sleep 60", "1")] {
        let (outcome, _) = compare_reports("strange-report", report, "1", patience);
        let title = "difference: seed 4, no files, program report\n";
        assert!(!outcome.well && outcome.text.starts_with(title), "{}", outcome.text);
    }
    let (outcome, _) = compare_reports("missing-report", "no-such-program-here", "1", "60");
    assert!(!outcome.well && outcome.text.contains("cannot start no-such-program-here"));
}

/// D11, M3: a `many` that delivers the lowest number differs, and so is shown.
#[test]
fn a_wrong_many_is_reported_and_its_files_are_kept() {
    let many = format!("{TWIN} many --wrong LowestNumberFirst");
    let (outcome, keep) = compare("wrong-many", &many, &format!("{TWIN} run"), "200");
    assert!(!outcome.well);
    assert!(outcome.text.starts_with("difference: seed 4, case 0, program many\n"), "{}", outcome.text);
    assert!(outcome.text.contains("first differing event: 34: call service 0"), "{}", outcome.text);
    assert!(outcome.text.contains("expected answer: 34 0 0 00001004 1 0 0 0\n"), "{}", outcome.text);
    assert!(outcome.text.contains("got answer:      34 0 0 00001004 0 0 0 0\n"), "{}", outcome.text);
    let kept = keep.join("seed-4-case-0-program-many");
    let again = Command::new(TWIN).arg("run").arg(&kept).output().expect("the twin starts");
    let expected = std::fs::read_to_string(kept.join("expected")).expect("kept");
    let got = std::fs::read_to_string(kept.join("got")).expect("kept");
    assert!(expected.starts_with(&String::from_utf8_lossy(&again.stdout)[..14]));
    assert_eq!(expected.lines().count(), got.lines().count());
    assert_ne!(expected, got);
}

/// No rule: the comparison with a wrong program that reads files.
#[test]
fn a_wrong_runlog_is_reported() {
    let (outcome, _) = compare("wrong-runlog", &format!("{TWIN} many"), &format!("{TWIN} state"), "200");
    assert!(!outcome.well);
    assert!(outcome.text.contains("program runlog\n"), "{}", outcome.text);
}

/// No rule: the comparison with programs that are no `many`.
#[test]
fn programs_that_say_nothing_something_else_or_never_end_are_reported() {
    for many in ["true", "cat", "sleep 60"] {
        let (outcome, _) = compare("strange", many, "true", "140");
        assert!(!outcome.well);
        assert!(outcome.text.starts_with("difference: seed 4, case 0, program many\n"), "{}", outcome.text);
    }
    let (outcome, _) = compare("missing", "no-such-program-here", "true", "140");
    assert!(!outcome.well && outcome.text.contains("cannot start no-such-program-here"));
}

/// No rule: the points that a comparison has to reach.
#[test]
fn too_few_cases_are_said_to_be_too_few() {
    let (outcome, _) = compare("few", &format!("{TWIN} many"), &format!("{TWIN} run"), "5");
    assert!(!outcome.well);
    assert!(outcome.text.contains("points were never reached"), "{}", outcome.text);
}

/// H1 to H11, I6, I8, I9, I15, T10, E13, D31 to D37, N9, N13 to N28, M1 to M8: every easy mistake and every
/// other wrong twin is told from the right one.
#[test]
fn every_wrong_twin_is_told_apart() {
    let (text, well) = selftest(1, 500);
    assert!(well, "{text}");
    assert_eq!(text.matches("told apart at case").count(), 137);
    assert_eq!(text.matches("told apart at folder").count(), 19);
    assert_eq!(text.matches("told apart at query folder").count(), 32);
    assert_eq!(text.matches("told apart at memory folder").count(), 22);
    let (text, well) = selftest(1, 1);
    assert!(!well && text.contains("NEVER told apart in 1 cases"));
    assert!(text.contains("NEVER told apart in 1 folders"));
    assert!(text.contains("NEVER told apart in 1 query folders"));
    assert!(text.contains("NEVER told apart in 1 memory folders"));
}

/// H1 to H7, I8, I9, I15, T10, A4, A5, R1, D13, D31 to D36: every fault, notice, code and refusal, every
/// number at every delivery, every queue count up, down and away, and every way of a copy.
#[test]
fn the_edge_cases_alone_reach_every_point() {
    for seed in 0..3 {
        let maker = CaseMaker::new(seed);
        let mut coverage = Coverage::default();
        for number in 0..maker.edge_count() {
            coverage.observe(&maker.case(number));
        }
        assert_eq!(coverage.missing(), Vec::<String>::new(), "seed {seed}");
    }
    assert!(!Coverage::default().missing().is_empty());
}

/// D27: an inject delivers each number, its own or another, or none.
#[test]
fn the_random_cases_alone_reach_every_point_of_service_2() {
    let maker = CaseMaker::new(1);
    let mut coverage = Coverage::default();
    for number in maker.edge_count()..maker.edge_count() + 1_000 {
        coverage.observe(&maker.case(number));
    }
    let mut points = coverage.points();
    points.retain(|(name, _)| name.starts_with("run: service 2 ") || name.ends_with(" at inject"));
    assert_eq!(points.len(), 7 + 32, "{points:?}");
    assert_eq!(never_reached(points), Vec::<String>::new());
}

/// A8: each kind of event that removes entries has none, one or more to remove.
#[test]
fn the_random_cases_alone_reach_every_point_of_removals() {
    let maker = CaseMaker::new(1);
    let mut coverage = Coverage::default();
    for number in maker.edge_count()..maker.edge_count() + 1_000 {
        coverage.observe(&maker.case(number));
    }
    let mut points = coverage.points();
    points.retain(|(name, _)| name.contains(" removes ") || name.contains(" removed "));
    assert_eq!(points.len(), 7 * 4 + 1, "{points:?}");
    assert_eq!(never_reached(points), Vec::<String>::new());
}

/// T10: each count grows, falls and is cleared at every event that does it, in the cases that no seed changes.
#[test]
fn the_fixed_cases_alone_reach_every_point_of_the_counts() {
    let (one, two) = (CaseMaker::new(1), CaseMaker::new(2));
    let mut coverage = Coverage::default();
    for number in 0..one.edge_count() {
        let case = one.case(number);
        if case == two.case(number) {
            coverage.observe(&case);
        }
    }
    let mut points = coverage.points();
    points.retain(|(name, _)| name.starts_with("counts: "));
    assert_eq!(points.len(), 8 * 6 + 9 + 7 + 14, "{points:?}");
    assert_eq!(never_reached(points), Vec::<String>::new());
}

/// T10: the same by chance, but that each VM alone fills a queue of 16.
#[test]
fn the_random_cases_alone_reach_the_points_of_the_counts() {
    let maker = CaseMaker::new(1);
    let mut coverage = Coverage::default();
    for number in maker.edge_count()..maker.edge_count() + 2_000 {
        coverage.observe(&maker.case(number));
    }
    let mut points = coverage.points();
    points.retain(|(name, _)| name.starts_with("counts: ") && !name.ends_with(" comes to 16"));
    assert_eq!(points.len(), 8 * 5 + 9 + 7 + 14, "{points:?}");
    assert_eq!(never_reached(points), Vec::<String>::new());
}

/// No rule: the points that the folders have to reach.
#[test]
fn the_fixed_folders_alone_reach_every_point_of_the_reports() {
    for seed in 0..3 {
        let mut coverage = ReportCoverage::default();
        for edge in edge_reports(seed) {
            coverage.observe(&edge.folder);
        }
        assert_eq!(coverage.missing(), Vec::<String>::new(), "seed {seed}");
    }
    let mut nothing = ReportCoverage::default();
    let all = nothing.missing();
    nothing.observe(&ReportFolder::of(&[], []));
    assert!(all.len() > 20 && nothing.missing() == all, "a refused image without logs reaches nothing");
}

/// No rule: the making of cases.
#[test]
fn cases_depend_on_the_seed_and_the_number_alone() {
    let (one, again, other) = (CaseMaker::new(1), CaseMaker::new(1), CaseMaker::new(2));
    let numbers = one.edge_count()..one.edge_count() + 60;
    assert!(numbers.clone().all(|number| one.case(number) == again.case(number)));
    assert!(numbers.clone().all(|number| one.case(number) != one.case(number + 1)));
    assert!(numbers.into_iter().all(|number| one.case(number) != other.case(number)));
}

/// No rule: the search for the first difference.
#[test]
fn the_first_parting_is_found() {
    let parting =
        first_parting(b"1 0 - - - 0 0 0\nnotice 0 0 0\n2 0 - x\n", b"1 0 - - - 0 0 0\nnotice 0 0 1\n");
    assert_eq!((parting.event, parting.expected_answer.as_str()), (1, "1 0 - - - 0 0 0"));
    assert_eq!((parting.expected_line.as_str(), parting.got_line.as_str()), ("notice 0 0 0", "notice 0 0 1"));
    let parting = first_parting(b"config 20 0\n", b"");
    assert_eq!((parting.event, parting.got_line.as_str()), (0, "(nothing)"));
}
