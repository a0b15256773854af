//! The comparison of access queries, through real processes; and the points that regions and queries reach.

use std::path::PathBuf;
use std::process::Command;

use twin::access::folder::AccessFolder;
use twin::core::config::Config;
use twin::core::flaw::Flaw;
use twin::core::region::Region;
use twin::coverage::access::AccessCoverage;
use twin::coverage::cases::{never_reached, Coverage};
use twin::edges::access::edge_accesses;
use twin::generate::access::generated_access;
use twin::generate::case::CaseMaker;
use twin::generate::image::{faulty_image, FAULTS};
use twin::generate::random::Random;
use twin::image::read::read_image;

const TWIN: &str = env!("CARGO_BIN_EXE_twin");

/// A comparison of access queries, by right programs otherwise: its text, whether it went well, and the
/// folder for what differs.
fn compare(name: &str, access: &str, cases: &str, patience: &str) -> (String, bool, PathBuf) {
    let keep = PathBuf::from(env!("CARGO_TARGET_TMPDIR")).join(name);
    let _ = std::fs::remove_dir_all(&keep);
    let (many, runlog) = (format!("{TWIN} many"), format!("{TWIN} run"));
    let output = Command::new(TWIN)
        .args(["compare", "--seed", "4", "--files", "5", "--cases", cases, "--patience", patience])
        .args(["--many", &many, "--runlog", &runlog, "--access", access, "--accesses", "60"])
        .arg("--keep")
        .arg(&keep)
        .output()
        .expect("the twin starts");
    let text = String::from_utf8(output.stdout).expect("ascii");
    (text, output.status.success(), keep)
}

/// No rule: the comparison with a right program.
#[test]
fn the_answers_of_the_twin_agree_with_themselves_and_reach_every_point() {
    let (text, well, keep) = compare("right-access", &format!("{TWIN} access"), "500", "60");
    assert!(well, "{text}");
    let folders = 60 + edge_accesses(4).len();
    assert!(text.contains(&format!("\naccess: {folders} folders, ")), "{text}");
    assert!(text.contains("access: across a gap of one byte: no = "), "{text}");
    assert!(text.ends_with(" events, no difference\n"), "{text}");
    assert!(!keep.exists());
}

/// H9, N23: a program that wants one region to cover a range differs, and so is shown.
#[test]
fn a_wrong_access_is_reported_and_its_files_are_kept() {
    let access = format!("{TWIN} access --wrong OneRegionCovers");
    let (text, well, keep) = compare("wrong-access", &access, "1", "60");
    assert!(!well);
    let shown = "difference: seed 4, ranges of VM 0, way 1, program access\n  first differing line: ";
    assert!(text.starts_with(shown), "{text}");
    assert!(text.contains(": query vm 0 way 1 address 0x"), "{text}");
    assert!(text.contains("\n  expected line: yes\n  got line:      no\n"), "{text}");
    let kept = keep.join("seed-4-ranges-of-VM-0-way-1-program-access");
    let edges = edge_accesses(4);
    let edge = edges.iter().find(|edge| edge.title == "ranges of VM 0, way 1").expect("it is one of them");
    assert_eq!(AccessFolder::read(&kept), edge.folder);
    let read = |name: &str| std::fs::read(kept.join(name)).expect("kept");
    assert_eq!(
        Command::new(TWIN).arg("access").arg(&kept).output().expect("it starts").stdout,
        read("expected")
    );
    assert_ne!(read("got"), read("expected"));
    assert!(read("run.txt").starts_with(b"core vms 4 queue 1\n"));
}

/// H4, H8 to H11, N22 to N25: a twin with one of these broken is told from the right one.
#[test]
fn every_wrong_access_is_found_by_the_fixed_folders() {
    let edges = edge_accesses(4);
    for (flaw, what) in Flaw::WRONG_ACCESSES {
        let apart = edges.iter().any(|edge| edge.folder.answers(flaw) != edge.folder.answers(Flaw::None));
        assert!(apart, "{what}");
    }
}

/// No rule: the comparison with programs that are no `access`.
#[test]
fn programs_that_say_nothing_something_else_or_never_end_are_reported() {
    for (access, patience) in [("true", "60"), ("echo yes", "60"), ("sleep 60", "1")] {
        let (text, well, _) = compare("strange-access", access, "1", patience);
        let title = "difference: seed 4, no files, program access\n";
        assert!(!well && text.starts_with(title), "{text}");
    }
    let (text, well, _) = compare("missing-access", "no-such-program-here", "1", "60");
    assert!(!well && text.contains("cannot start no-such-program-here"));
}

/// No rule: the points that the folders have to reach.
#[test]
fn the_fixed_folders_alone_reach_every_point_of_access() {
    for seed in 0..3 {
        let mut coverage = AccessCoverage::default();
        for edge in edge_accesses(seed) {
            coverage.observe(&edge.folder);
        }
        assert_eq!(coverage.missing(), Vec::<String>::new(), "seed {seed}");
    }
    let mut nothing = AccessCoverage::default();
    let all = nothing.missing();
    nothing.observe(&AccessFolder::of(&[], &[]));
    assert!(all.len() > 50 && nothing.missing() == all, "a refused image without queries reaches nothing");
}

/// H8 to H11, N24, N25: the random folders come by every point without the fixed ones.
#[test]
fn the_random_folders_alone_reach_every_point_of_access() {
    let mut coverage = AccessCoverage::default();
    for number in 0..2_000 {
        coverage.observe(&generated_access(1, number));
    }
    let mut missing = coverage.missing();
    // Too seldom for a draw: both files missing, and a cut record straight before the greatest length.
    missing.retain(|name| !name.contains("no files") && !name.contains("5,999"));
    assert_eq!(missing, Vec::<String>::new());
}

/// H1 to H7, I8, I9, I15: the random cases come by nearly every point of the regions.
#[test]
fn the_random_cases_alone_reach_the_points_of_the_regions() {
    let maker = CaseMaker::new(1);
    let mut coverage = Coverage::default();
    for number in maker.edge_count()..maker.edge_count() + 6_000 {
        coverage.observe(&maker.case(number));
    }
    let mut points = coverage.points();
    points.retain(|(name, _)| name.starts_with("regions: ") || name.contains("fault 3"));
    assert!(points.len() > 45, "{points:?}");
    // Too seldom for a draw: the longest image without regions, and a 65th region of nobody.
    let missing =
        never_reached(points).into_iter().filter(|name| !name.contains("332") && !name.contains("64"));
    assert_eq!(missing.collect::<Vec<_>>(), Vec::<String>::new());
}

/// I8: an image made for a fault has that fault, and none other before it.
#[test]
fn an_image_made_for_a_fault_has_it() {
    for fault in FAULTS {
        for number in 0..200 {
            let image = faulty_image(&mut Random::of_case(u64::from(fault), number), fault);
            let found = read_image(&image, Flaw::None).expect_err("refused").number;
            assert_eq!(found, fault, "number {number}");
        }
    }
}

/// No rule: what the random cases hold: most are accepted, most have no regions or a few, and many have some of
/// the window.
#[test]
fn most_random_images_are_accepted_and_have_few_regions() {
    let maker = CaseMaker::new(8);
    let numbers = maker.edge_count()..maker.edge_count() + 2_000;
    let configs: Vec<Config> =
        numbers.filter_map(|number| read_image(&maker.case(number).image, Flaw::None).ok()).collect();
    let counts: Vec<u8> = configs.iter().map(|config| config.region_count).collect();
    assert!(counts.len() > 1_700, "{}", counts.len());
    let few = counts.iter().filter(|count| **count <= 5).count();
    assert!(few * 10 > counts.len() * 6 && counts.iter().any(|count| *count > 50), "{few}");
    assert!(counts.iter().filter(|count| **count == 0).count() * 4 > counts.len());
    let in_window = |region: &Region| region.start < 0x4000_4000 && region.last >= 0x4000_0000;
    let with_window = configs.iter().filter(|config| config.memory().iter().any(in_window)).count();
    assert!(with_window * 4 > configs.len(), "{with_window}");
}
