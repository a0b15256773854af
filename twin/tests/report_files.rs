//! The report through the command line: its files, its text, and the folder that it is compared in.

mod common;

use std::fs;

use common::{folder, shown, twin, worked_case};
use twin::core::flaw::Flaw;
use twin::generate::report::generated_folder;
use twin::readable_text::parse::report_folder_of;
use twin::readable_text::print::report_folder_text;
use twin::report::folder::{log_name, LogFile, ReportFolder};

const WORKED: &str = "0 2 1 1\n1 1 0 0\nidle 1\nticks 5\n";
const TWICE: &str = "0 4 2 2\n1 2 0 0\nidle 2\nticks 10\n";

/// The worked example's image, and its log so many times.
fn worked(logs: usize) -> ReportFolder {
    ReportFolder::of(&worked_case().image, vec![worked_case().log; logs])
}

fn good(output: &str) -> (Option<i32>, String, String) {
    (Some(0), String::from(output), String::new())
}

/// N13: the names of the logs.
#[test]
fn logs_have_two_digits() {
    assert_eq!([0, 9, 10, 15].map(log_name), ["log00.bin", "log09.bin", "log10.bin", "log15.bin"]);
}

/// N8, N13, N20, N21, X3: logs that are missing, empty or folders, and no image.
#[test]
fn the_report_reads_the_files_in_its_folder() {
    let place = folder("report");
    assert_eq!(twin(&["report", shown(&place)]), good("config 20 0\n"));
    worked(1).write_into(&place).expect("written");
    assert_eq!(twin(&["report", shown(&place)]), good(WORKED));
    fs::copy(place.join("log00.bin"), place.join("log02.bin")).expect("copied");
    assert_eq!(twin(&["report", shown(&place)]), good(WORKED));
    fs::create_dir(place.join("log01.bin")).expect("made");
    assert_eq!(twin(&["report", shown(&place)]), good(TWICE), "a folder ends nothing");
    fs::remove_dir(place.join("log01.bin")).expect("removed");
    fs::write(place.join("log01.bin"), []).expect("written");
    assert_eq!(twin(&["report", shown(&place)]), good(TWICE), "an empty log ends nothing");
    fs::remove_file(place.join("config.bin")).expect("removed");
    assert_eq!(twin(&["report", shown(&place)]), good("config 20 0\n"));
}

/// N13, N14: seventeen files.
#[test]
fn sixteen_files_are_read_and_no_more() {
    let place = folder("report-sixteen");
    worked(17).write_into(&place).expect("written");
    assert!(place.join("log16.bin").exists());
    assert_eq!(ReportFolder::read(&place), worked(17));
    assert_eq!(ReportFolder::read(&place).listed().len(), 16);
    assert_eq!(twin(&["report", shown(&place)]), good("0 32 16 16\n1 16 0 0\nidle 16\nticks 80\n"));
}

/// No rule: the folder that a report is compared in.
#[test]
fn files_of_the_case_before_are_gone() {
    let place = folder("report-leftovers");
    let mut first = worked(16);
    first.logs[3] = LogFile::Folder;
    first.write_into(&place).expect("written");
    assert_eq!(ReportFolder::read(&place).opened(), first.opened());
    let gap = vec![LogFile::Bytes(vec![0x10]), LogFile::Missing, LogFile::Bytes(vec![0x11])];
    let second = ReportFolder { image: None, logs: gap };
    second.write_into(&place).expect("written");
    let mut names: Vec<_> =
        fs::read_dir(&place).expect("a folder").map(|it| it.expect("it").file_name()).collect();
    names.sort();
    assert_eq!(names, ["log00.bin", "log02.bin"]);
}

/// No rule: the readable text of a report, through files.
#[test]
fn pack_logs_and_unpack_logs_undo_each_other() {
    let place = folder("pack-logs");
    let (text, files, again) = (place.join("run.txt"), place.join("new/files"), place.join("again.txt"));
    for logs in [16, 3, 0] {
        fs::write(&text, report_folder_text(&worked(logs))).expect("written");
        assert_eq!(twin(&["pack-logs", shown(&text), shown(&files)]), good(""));
        assert_eq!(fs::read_dir(&files).expect("made").count(), 1 + logs);
        assert_eq!(ReportFolder::read(&files), worked(logs));
        assert_eq!(twin(&["unpack-logs", shown(&files), shown(&again)]), good(""));
        assert_eq!(fs::read(&again).expect("made"), fs::read(&text).expect("made"));
    }
    let (status, _, message) = twin(&["unpack-logs", shown(&place), "unused.txt"]);
    assert!(status == Some(1) && message.contains("has neither config.bin nor log00.bin"), "{message}");
}

/// No rule: the form of the readable text of a report.
#[test]
fn the_text_has_a_part_for_each_log() {
    let files = ReportFolder::of(&[4], [vec![0x10], vec![], vec![0x11, 1], vec![0x12, 7]]);
    let text = "end\n\nlog\nstart\n\nlog\n\nlog\nraw 11 01\n\nlog\nstop 7\n";
    assert_eq!(report_folder_text(&files), text);
    assert_eq!(report_folder_of(text), Ok(files));
    assert_eq!(report_folder_of("end\n"), Ok(ReportFolder::of(&[4], [])));
    assert!(report_folder_of(&"log\n".repeat(16)).is_ok());
    let error = report_folder_of(&"log\n".repeat(17)).expect_err("one log too many");
    assert_eq!((error.line, error.message.contains("no more logs than 16")), (17, true));
}

/// No rule: the readable text of a report keeps every byte.
#[test]
fn any_logs_come_back_from_their_text() {
    for number in 0..150 {
        let made = generated_folder(8, number);
        let files = ReportFolder::of(made.image_bytes(), made.listed());
        assert_eq!(report_folder_of(&report_folder_text(&files)), Ok(files), "folder {number}");
    }
}

/// No rule: the making of folders.
#[test]
fn a_generated_folder_can_be_made_again() {
    let place = folder("case-logs");
    let made = (0..).map(|number| (number, generated_folder(3, number)));
    let (number, files) = made.into_iter().find(|(_, files)| files.logs.len() > 3).expect("there are many");
    let number = number.to_string();
    assert_eq!(twin(&["case-logs", "--seed", "3", "--number", &number, shown(&place)]), good(""));
    let expected = fs::read_to_string(place.join("expected-report")).expect("made");
    assert_eq!(expected.as_bytes(), files.report(Flaw::None));
    assert_eq!(twin(&["report", shown(&place)]), good(&expected));
}

/// No rule: the making of folders.
#[test]
fn folders_depend_on_the_seed_and_the_number_alone() {
    assert!((0..60).all(|number| generated_folder(1, number) == generated_folder(1, number)));
    assert!((0..60).all(|number| generated_folder(1, number) != generated_folder(1, number + 1)));
    assert!((0..60).all(|number| generated_folder(1, number) != generated_folder(2, number)));
}
