//! The examples for readers: the text makes the files, and the files make the expected output.

mod common;

use std::fs;
use std::path::PathBuf;

use common::{events_of, worked_case, worked_lines, STATE_LINES};
use twin::access::folder::AccessFolder;
use twin::core::flaw::Flaw;
use twin::core::limits::MAX_VMS;
use twin::image::read::read_image;
use twin::memlog::folder::MemoryFolder;
use twin::readable_text::parse::{access_folder_of, case_of, report_folder_of};
use twin::report::folder::ReportFolder;
use twin::run::frames::Case;
use twin::run::text::{run_text, Detail};

const NAMES: [&str; 6] = ["worked", "stopped-model", "extra-time", "thrown-away", "refused-image", "wheels"];

/// The examples that hold the whole states of their run too.
const NAMES_WITH_STATES: [&str; 1] = ["thrown-away"];

fn file(example: &str, name: &str) -> Vec<u8> {
    let path = PathBuf::from(env!("CARGO_MANIFEST_DIR")).join("../examples").join(example).join(name);
    fs::read(&path).unwrap_or_else(|error| panic!("{}: {error}", path.display()))
}

fn files(example: &str) -> Case {
    Case { image: file(example, "config.bin"), log: file(example, "events.bin") }
}

/// No rule: the readable text of the examples.
#[test]
fn the_text_of_each_example_makes_its_files() {
    for name in NAMES {
        let text = String::from_utf8(file(name, "run.txt")).expect("a text");
        assert_eq!(case_of(&text), Ok(files(name)), "{name}");
    }
}

/// A8, D7, D10, N3, N5, X2: extra time, a stopped VM, requests removed, a refused image.
#[test]
fn the_files_of_each_example_make_its_expected_output() {
    for name in NAMES {
        let case = files(name);
        let text = run_text(&case.image, &case.log, Detail::Lines, Flaw::None);
        assert_eq!(String::from_utf8(text), String::from_utf8(file(name, "expected")), "{name}");
    }
}

/// The line of the counts that belongs behind this line of the queue.
fn counts_line_for(queue_line: &str) -> String {
    let entries: Vec<&str> = queue_line.split(' ').skip(1).collect();
    let entries_of = |vm: usize| entries.iter().filter(|entry| **entry == vm.to_string()).count();
    (0..MAX_VMS).fold("counts".to_string(), |line, vm| format!("{line} {}", entries_of(vm)))
}

/// A8, D7, T10, N9: whole states, with the counts of a queue that fills, is served and loses requests.
#[test]
fn the_files_of_an_example_make_its_expected_states_with_the_counts_of_the_queue() {
    for name in NAMES_WITH_STATES {
        let case = files(name);
        let text = run_text(&case.image, &case.log, Detail::States, Flaw::None);
        let text = String::from_utf8(text).expect("ascii");
        assert_eq!(text, String::from_utf8(file(name, "expected-state")).expect("ascii"), "{name}");
        let lines: Vec<&str> = text.lines().collect();
        assert_eq!(lines.len(), events_of(&case.log).len() * STATE_LINES, "{name}");
        for state in lines.chunks(STATE_LINES) {
            let (queue_line, counts_line) = (state[3], state[4]);
            assert!(queue_line.starts_with("queue"), "{name}: {state:?}");
            assert_eq!(counts_line, counts_line_for(queue_line), "{name}: {state:?}");
        }
    }
}

/// X1, X2: the files of the worked example.
#[test]
fn the_first_example_is_the_worked_one() {
    assert_eq!(files("worked"), worked_case());
    assert_eq!(file("worked", "expected"), worked_lines().as_bytes());
}

/// No rule: the readable text of a report.
#[test]
fn the_text_of_the_league_evening_makes_its_files() {
    let folder = PathBuf::from(env!("CARGO_MANIFEST_DIR")).join("../examples/league");
    let text = String::from_utf8(file("league", "run.txt")).expect("a text");
    assert_eq!(report_folder_of(&text), Ok(ReportFolder::read(&folder)));
    assert_eq!(ReportFolder::read(&folder).logs.len(), 3);
}

/// N14, N16 to N18: the report of three logs.
#[test]
fn the_files_of_the_league_evening_make_its_expected_report() {
    let logs = ["log00.bin", "log01.bin", "log02.bin"].map(|name| file("league", name));
    let report = ReportFolder::of(&file("league", "config.bin"), logs).report(Flaw::None);
    let expected = "0 10 2 0\n1 9 1 0\n2 7 1 2\nidle 6\nticks 36\n";
    assert_eq!(String::from_utf8(report).expect("ascii"), expected);
    assert_eq!(file("league", "expected-report"), expected.as_bytes());
}

/// N15 to N18: the report of each log alone.
#[test]
fn the_figures_of_each_stint_are_those_in_the_text_of_the_league_evening() {
    let stints = [
        ("log00.bin", "0 4 1 0\n1 4 1 0\n2 4 1 0\nidle 1\nticks 16\n"),
        ("log01.bin", "0 4 1 0\n1 4 0 0\n2 2 0 2\nidle 4\nticks 15\n"),
        ("log02.bin", "0 2 0 0\n1 1 0 0\n2 1 0 0\nidle 1\nticks 5\n"),
    ];
    for (name, expected) in stints {
        let stint = ReportFolder::of(&file("league", "config.bin"), [file("league", name)]);
        assert_eq!(stint.report(Flaw::None), expected.as_bytes(), "{name}");
    }
}

/// No rule: the readable text of access queries.
#[test]
fn the_text_of_the_regions_makes_its_files() {
    let folder = PathBuf::from(env!("CARGO_MANIFEST_DIR")).join("../examples/regions");
    let text = String::from_utf8(file("regions", "run.txt")).expect("a text");
    assert_eq!(access_folder_of(&text), Ok(AccessFolder::read(&folder)));
    let config = read_image(&file("regions", "config.bin"), Flaw::None).expect("accepted");
    assert_eq!((config.vm_count, config.region_count), (3, 6));
}

/// H6, H8 to H10, N22, N23: the answers to the queries, and those that the comments of the text give.
#[test]
fn the_files_of_the_regions_make_their_expected_answers() {
    let files = AccessFolder::of(&file("regions", "config.bin"), &file("regions", "queries.bin"));
    let answers = String::from_utf8(files.answers(Flaw::None)).expect("ascii");
    assert_eq!(answers.as_bytes(), file("regions", "expected-access"));
    let text = String::from_utf8(file("regions", "run.txt")).expect("a text");
    let queries = text.lines().filter(|line| line.starts_with("query "));
    let told: Vec<&str> = queries.filter_map(|line| line.split(['#', ':']).nth(1)).map(str::trim).collect();
    assert_eq!(told, answers.lines().collect::<Vec<_>>());
    assert_eq!((told.len(), told.iter().filter(|answer| **answer == "yes").count()), (15, 6));
}

/// The four wheels, as the memory of their example holds them at first.
const WHEELS: [[u8; 16]; 4] =
    [*b"front left  3100", *b"front right 3050", *b"rear left   2900", *b"rear right  2875"];

/// The bytes of a window by the lines of its rows, those left out zero.
fn window_of(text: &str) -> Vec<u8> {
    let mut bytes = vec![0; 16_384];
    for line in text.lines().filter(|line| line.starts_with("memory ")) {
        let offset = usize::from_str_radix(&line[7..15], 16).expect("an address") - 0x4000_0000;
        for index in 0..32 {
            let digits = &line[16 + 2 * index..18 + 2 * index];
            bytes[offset + index] = u8::from_str_radix(digits, 16).expect("a byte");
        }
    }
    bytes
}

/// D34 to D36, L6, N26, N27, C11: the window of the wheels, as the files make it and as their text tells it.
#[test]
fn the_files_of_the_wheels_make_their_expected_memory() {
    let memory = file("wheels", "memory.bin");
    let mut first = vec![0; 0x340];
    for (wheel, bytes) in WHEELS.iter().enumerate() {
        first[0x100 * wheel..][..16].copy_from_slice(bytes);
    }
    assert_eq!(memory, first);
    let Case { image, log } = files("wheels");
    let text = String::from_utf8(MemoryFolder::of(&image, &log, &memory).text(Flaw::None)).expect("ascii");
    assert_eq!(text.as_bytes(), file("wheels", "expected-memory"));
    assert!(text.as_bytes().starts_with(&file("wheels", "expected")));
    let window = window_of(&text);
    assert_eq!(window[..24], *b"front lefront left  3100", "moved on over itself");
    assert_eq!(window[0x1000..0x1040], WHEELS.concat(), "as the first copy published them");
    assert_eq!(window[0x2000..0x2040], WHEELS.concat(), "what the display took");
    let lines: Vec<&str> = text.lines().collect();
    assert_eq!(lines[2], "3 0 0 00001010 - 0 0 0");
    assert_eq!([lines[4], lines[9], lines[13]], ["5 0 - - - 3 0 0", "10 5 - - - 0 0 0", "14 0 - - - 3 0 0"]);
}
