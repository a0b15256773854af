//! The window of a run: the text of `memlog`, its files, the folders that are generated, and the comparison.

mod common;

use std::fs;
use std::path::PathBuf;
use std::process::Command;

use common::{copy, extent, folder, p14_config, shown, tick, twin};
use twin::core::event::{Event, Extent};
use twin::core::flaw::Flaw;
use twin::coverage::cases::{never_reached, Coverage};
use twin::coverage::memories::MemoryCoverage;
use twin::edges::memories::edge_memories;
use twin::generate::case::CaseMaker;
use twin::generate::memories::generated_memory;
use twin::image::write::image_bytes;
use twin::log::write::log_of;
use twin::memlog::folder::{MemoryFile, MemoryFolder};
use twin::readable_text::print::text_of;
use twin::run::text::{run_text, Detail};

const TWIN: &str = env!("CARGO_BIN_EXE_twin");

fn at(source: u32, destination: u32, length: u32) -> Extent {
    extent(0x4000_0000 + source, 0x4000_0000 + destination, length)
}

fn image() -> Vec<u8> {
    image_bytes(&p14_config(), Flaw::None)
}

/// VM 0 runs and copies.
fn copying(copies: &[Event]) -> Vec<u8> {
    log_of(&[&[Event::Start, tick(0)], copies].concat())
}

fn text(log: &[u8], memory: &[u8]) -> String {
    String::from_utf8(MemoryFolder::of(&image(), log, memory).text(Flaw::None)).expect("ascii")
}

/// The line of a row: its offset, and its first bytes, zeros behind them.
fn row(offset: u32, first: &[u8]) -> String {
    let mut bytes = first.to_vec();
    bytes.resize(32, 0);
    let digits: String = bytes.iter().map(|byte| format!("{byte:02x}")).collect();
    format!("memory {:08x} {digits}\n", 0x4000_0000 + offset)
}

const STARTED: &str = "1 0 - - - 0 0 0\n2 0 0 00001000 - 0 0 0\n";

/// N26, N27: the lines of the run, then the rows that are not all zero.
#[test]
fn the_window_stands_behind_the_lines() {
    let log = copying(&[copy(&[at(0, 0x100, 3)])]);
    let expected =
        format!("{STARTED}3 0 0 00001010 - 0 0 0\n{}{}", row(0, &[1, 2, 0xab]), row(0x100, &[1, 2, 0xab]));
    assert_eq!(text(&log, &[1, 2, 0xab]), expected);
    assert!(expected
        .contains("memory 40000100 0102ab0000000000000000000000000000000000000000000000000000000000\n"));
    assert_eq!(text(&copying(&[]), &[]), STARTED);
    assert_eq!(text(&[], &[7]), row(0, &[7]));
}

/// N27: rows of zeros are left out, wherever they are; there are 512 rows of 32 bytes.
#[test]
fn rows_of_zeros_are_left_out() {
    let with = |places: &[usize]| {
        let mut memory = vec![0; 16_384];
        places.iter().for_each(|place| memory[*place] = 0xfe);
        text(&[], &memory)
    };
    let last = |place: usize| {
        let mut bytes = vec![0; 32];
        bytes[place] = 0xfe;
        bytes
    };
    assert_eq!(with(&[]), "");
    assert_eq!(with(&[31]), row(0, &last(31)));
    assert_eq!(with(&[32]), row(0x20, &last(0)));
    assert_eq!(with(&[16_383]), row(0x3fe0, &last(31)));
    assert_eq!(
        with(&[16_383, 0, 64]),
        format!("{}{}{}", row(0, &last(0)), row(0x40, &last(0)), row(0x3fe0, &last(31)))
    );
    let all = text(&[], &[0xff; 16_384]);
    assert_eq!(all.lines().count(), 512);
    for (index, line) in all.lines().enumerate() {
        assert_eq!(line, format!("memory {:08x} {}", 0x4000_0000 + 32 * index, "ff".repeat(32)));
    }
}

/// D36, N27: a copy of zeros takes a row away.
#[test]
fn a_row_that_becomes_zero_has_no_line() {
    let copied = text(&copying(&[copy(&[at(0x40, 0, 64)])]), &[9; 64]);
    assert_eq!(copied, format!("{STARTED}3 0 0 00001010 - 0 0 0\n"));
}

/// D35, P22: a copy that ends its VM leaves the window as it was.
#[test]
fn a_copy_that_fails_moves_nothing() {
    let copied =
        text(&copying(&[copy(&[at(0, 0x40, 4), at(0, 0x180, 4)]), copy(&[at(0, 0x40, 4)])]), &[1, 2, 3, 4]);
    assert_eq!(copied, format!("{STARTED}3 0 - - - 3 0 0\n4 5 - - - 0 0 0\n{}", row(0, &[1, 2, 3, 4])));
}

/// L6, N26: at most 16,384 bytes of the memory are used; behind a shorter one there are zeros.
#[test]
fn the_memory_begins_the_window() {
    let whole: Vec<u8> = (0..20_000).map(|index| 1 + (index % 251) as u8).collect();
    let full = text(&[], &whole[..16_384]);
    assert_eq!(full.lines().count(), 512);
    for length in [16_385, 16_416, 20_000] {
        assert_eq!(text(&[], &whole[..length]), full, "{length} bytes");
    }
    assert_ne!(text(&[], &whole[..16_383]), full);
    assert_eq!(text(&[], &whole[..33]), format!("{}{}", row(0, &whole[..32]), row(0x20, &whole[32..33])));
}

/// N5 to N7, N28: behind a cut line the window is printed; where there is no run it is not.
#[test]
fn only_a_run_has_a_window() {
    let good = copying(&[copy(&[at(0, 0x40, 1)])]);
    let cut = [&good[..], &[0x19, 1, 2]].concat();
    let rows = format!("{}{}", row(0, &[5]), row(0x40, &[5]));
    assert_eq!(text(&cut, &[5]), format!("{STARTED}3 0 0 00001010 - 0 0 0\ncut 4\n{rows}"));
    let short = [&good[..], &good[6..60]].concat();
    assert_eq!(text(&short, &[5]), format!("{STARTED}3 0 0 00001010 - 0 0 0\ncut 4\n{rows}"));
    assert_eq!(text(&[0x1a], &[5]), format!("cut 1\n{}", row(0, &[5])));
    assert_eq!(text(&[0x10; 60_001], &[5]), "long\n");
    let refused = MemoryFolder::of(&image()[..20], &good, &[5]).text(Flaw::None);
    assert_eq!(refused, b"config 20 12\n");
    assert_eq!(MemoryFolder::of(&[], &[0x10; 60_001], &[5]).text(Flaw::None), b"config 20 0\n");
}

/// N26: but for the rows behind them the lines are those of `runlog`, whatever the memory is.
#[test]
fn the_lines_are_those_of_runlog() {
    let edges = edge_memories(3).into_iter().map(|edge| edge.folder);
    for (number, files) in edges.chain((0..200).map(|number| generated_memory(3, number))).enumerate() {
        let lines = run_text(files.image_bytes(), files.log_bytes(), Detail::Lines, Flaw::None);
        let whole = files.text(Flaw::None);
        assert!(whole.starts_with(&lines), "folder {number}");
        let rows = String::from_utf8(whole[lines.len()..].to_vec()).expect("ascii");
        assert!(
            rows.lines().all(|line| line.len() == 80 && line.starts_with("memory 4000")),
            "folder {number}"
        );
        assert!(rows.is_empty() || rows.ends_with('\n'));
        let mut addresses: Vec<&str> = rows.lines().map(|line| &line[7..15]).collect();
        let told = addresses.clone();
        addresses.sort_unstable();
        addresses.dedup();
        assert_eq!(told, addresses, "folder {number}");
    }
}

fn good(output: &str) -> (Option<i32>, String, String) {
    (Some(0), String::from(output), String::new())
}

/// N8, N26: the three files, all there, one of them missing, a folder in place of the memory, or none.
#[test]
fn memlog_reads_the_files_in_its_folder() {
    let place = folder("memlog");
    assert_eq!(twin(&["memlog", shown(&place)]), good("config 20 0\n"));
    let files = MemoryFolder::of(&image(), &copying(&[copy(&[at(0, 0x40, 1)])]), &[5]);
    files.write_into(&place).expect("written");
    assert_eq!(MemoryFolder::read(&place), files);
    let lines = format!("{STARTED}3 0 0 00001010 - 0 0 0\n");
    let rows = format!("{}{}", row(0, &[5]), row(0x40, &[5]));
    assert_eq!(twin(&["memlog", shown(&place)]), good(&format!("{lines}{rows}")));
    assert_eq!(twin(&["run", shown(&place)]), good(&lines));
    for memory in [MemoryFile::Folder, MemoryFile::Missing, MemoryFile::Bytes(Vec::new())] {
        let files = MemoryFolder { memory, ..files.clone() };
        files.write_into(&place).expect("written");
        assert_eq!(MemoryFolder::read(&place), files);
        assert_eq!(twin(&["memlog", shown(&place)]), good(&lines));
    }
    MemoryFolder { log: None, ..files.clone() }.write_into(&place).expect("written");
    assert_eq!(twin(&["memlog", shown(&place)]), good(&row(0, &[5])));
    MemoryFolder { image: None, ..files }.write_into(&place).expect("written");
    assert_eq!(twin(&["memlog", shown(&place)]), good("config 20 0\n"));
}

/// No rule: the making of folders.
#[test]
fn a_generated_folder_can_be_made_again() {
    let place = folder("case-memory");
    let files = generated_memory(3, 7);
    assert_eq!(twin(&["case-memory", "--seed", "3", "--number", "7", shown(&place)]), good(""));
    assert_eq!(MemoryFolder::read(&place), files);
    let expected = fs::read_to_string(place.join("expected-memory")).expect("made");
    assert_eq!(expected.as_bytes(), files.text(Flaw::None));
    assert_eq!(fs::read_to_string(place.join("run.txt")).expect("made"), text_of(&files.case()));
    assert!((0..60).all(|number| generated_memory(1, number) == generated_memory(1, number)));
    assert!((0..60).all(|number| generated_memory(1, number) != generated_memory(1, number + 1)));
    assert!((0..60).all(|number| generated_memory(1, number) != generated_memory(2, number)));
}

/// A comparison of windows, by right programs otherwise: its text, whether it went well, and the folder for
/// what differs.
fn compare(name: &str, memlog: &str, cases: &str, patience: &str) -> (String, bool, PathBuf) {
    let keep = PathBuf::from(env!("CARGO_TARGET_TMPDIR")).join(name);
    let _ = fs::remove_dir_all(&keep);
    let (many, runlog) = (format!("{TWIN} many"), format!("{TWIN} run"));
    let output = Command::new(TWIN)
        .args(["compare", "--seed", "4", "--files", "5", "--cases", cases, "--patience", patience])
        .args(["--many", &many, "--runlog", &runlog, "--memlog", memlog, "--memlogs", "60"])
        .arg("--keep")
        .arg(&keep)
        .output()
        .expect("the twin starts");
    let text = String::from_utf8(output.stdout).expect("ascii");
    (text, output.status.success(), keep)
}

/// No rule: the comparison with a right program.
#[test]
fn the_windows_of_the_twin_agree_with_themselves_and_reach_every_point() {
    let (text, well, keep) = compare("right-memlog", &format!("{TWIN} memlog"), "500", "60");
    assert!(well, "{text}");
    let folders = 60 + edge_memories(4).len();
    assert!(text.contains(&format!("\nmemlog: {folders} folders, ")), "{text}");
    assert!(text.contains("memory: overlap forwards that changes bytes = "), "{text}");
    assert!(!keep.exists());
}

/// D36, N27: a program that copies overlapping bytes from the front differs, and so is shown.
#[test]
fn a_wrong_memlog_is_reported_and_its_files_are_kept() {
    let memlog = format!("{TWIN} memlog --wrong CopiesForwards");
    let (text, well, keep) = compare("wrong-memlog", &memlog, "1", "60");
    assert!(!well);
    assert!(text.starts_with("difference: seed 4, vector 0, program memlog\n"), "{text}");
    assert!(
        text.contains("\n  expected line:   memory 40000020 101112131415161718191a1b1c1d1e1f2021"),
        "{text}"
    );
    let kept = keep.join("seed-4-vector-0-program-memlog");
    let edges = edge_memories(4);
    let edge = edges.iter().find(|edge| edge.title == "vector 0").expect("it is one of them");
    assert_eq!(MemoryFolder::read(&kept), edge.folder);
    let read = |name: &str| fs::read(kept.join(name)).expect("kept");
    assert_eq!(edge.folder.text(Flaw::None), read("expected"));
    assert_eq!(edge.folder.text(Flaw::CopiesForwards), read("got"));
    assert!(read("run.txt").starts_with(b"core vms 1 queue 4\n"));
}

/// No rule: the comparison with programs that are no `memlog`.
#[test]
fn programs_that_say_nothing_something_else_or_never_end_are_reported() {
    for (memlog, patience) in [("true", "60"), ("echo memory", "60"), ("sleep 60", "1")] {
        let (text, well, _) = compare("strange-memlog", memlog, "1", patience);
        assert!(!well && text.starts_with("difference: seed 4, no files, program memlog\n"), "{text}");
    }
    let (text, well, _) = compare("missing-memlog", "no-such-program-here", "1", "60");
    assert!(!well && text.contains("cannot start no-such-program-here"));
}

/// D35, D36, N26 to N28: a twin with one of these broken is told from the right one by the fixed folders.
#[test]
fn every_wrong_window_is_found_by_the_fixed_folders() {
    let edges = edge_memories(4);
    for (flaw, what) in Flaw::WRONG_MEMORIES {
        let apart = edges.iter().any(|edge| edge.folder.text(flaw) != edge.folder.text(Flaw::None));
        assert!(apart, "{what}");
    }
}

/// D37: what is wrong with the bytes alone does not show in a run that prints no window.
#[test]
fn the_states_do_not_show_a_wrong_window() {
    for number in 0..60 {
        let files = generated_memory(5, number);
        let states = |flaw: Flaw| run_text(files.image_bytes(), files.log_bytes(), Detail::States, flaw);
        let right = states(Flaw::None);
        assert!(Flaw::WRONG_MEMORIES.iter().all(|(flaw, _)| states(*flaw) == right), "folder {number}");
    }
}

/// No rule: the points that the folders have to reach.
#[test]
fn the_fixed_folders_alone_reach_every_point_of_the_windows() {
    for seed in 0..3 {
        let mut coverage = MemoryCoverage::default();
        for edge in edge_memories(seed) {
            coverage.observe(&edge.folder);
        }
        assert_eq!(coverage.missing(), Vec::<String>::new(), "seed {seed}");
    }
    assert!(MemoryCoverage::default().missing().len() > 25);
}

/// D35, D36, N26 to N28: the random folders come by every point without the fixed ones.
#[test]
fn the_random_folders_alone_reach_every_point_of_the_windows() {
    let mut coverage = MemoryCoverage::default();
    for number in 0..1_500 {
        coverage.observe(&generated_memory(1, number));
    }
    let mut missing = coverage.missing();
    // Too seldom for a draw: all files missing, and a log cut at once.
    missing.retain(|name| !name.contains("no files") && !name.contains("first record"));
    assert_eq!(missing, Vec::<String>::new());
    assert!(coverage.copies > 5_000, "{} copies that change bytes", coverage.copies);
}

/// D31 to D36: the random cases come by nearly every point of the copies without the fixed ones.
#[test]
fn the_random_cases_alone_reach_the_points_of_the_copies() {
    let maker = CaseMaker::new(1);
    let mut coverage = Coverage::default();
    for number in maker.edge_count()..maker.edge_count() + 6_000 {
        coverage.observe(&maker.case(number));
    }
    let mut points = coverage.points();
    points.retain(|(name, _)| name.starts_with("copy: ") || name.starts_with("copy refusal"));
    assert!(points.len() > 45, "{points:?}");
    // Too seldom for a draw: ranges that are granted at both ends of the space.
    let missing = never_reached(points).into_iter().filter(|name| !name.contains("of the space"));
    assert_eq!(missing.collect::<Vec<_>>(), Vec::<String>::new());
}
