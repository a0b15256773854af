//! The command line: what it prints and how it exits, with good arguments and bad ones.

mod common;

use std::fs::{self, File};
use std::io::Write;
use std::process::{Command, Stdio};

use common::{folder, shown, twin, worked_case, worked_lines, STATE_LINES};
use twin::readable_text::print::text_of;

/// N1, N9, X2: the run of the two files.
#[test]
fn pack_run_state_and_unpack() {
    let place = folder("pack");
    let (text, files, again) = (place.join("run.txt"), place.join("new/files"), place.join("again.txt"));
    fs::write(&text, text_of(&worked_case())).expect("written");
    assert_eq!(twin(&["pack", shown(&text), shown(&files)]), (Some(0), String::new(), String::new()));
    assert_eq!(fs::read(files.join("config.bin")).expect("made"), worked_case().image);
    assert_eq!(fs::read(files.join("events.bin")).expect("made"), worked_case().log);
    assert_eq!(twin(&["run", shown(&files)]).1, worked_lines());
    assert_eq!(twin(&["state", shown(&files)]).1.lines().count(), 13 * STATE_LINES);
    assert_eq!(twin(&["unpack", shown(&files), shown(&again)]).0, Some(0));
    assert_eq!(fs::read(&again).expect("made"), fs::read(&text).expect("made"));
}

/// No rule: the packing of a wrong text.
#[test]
fn a_bad_text_is_refused_with_its_line_and_makes_no_files() {
    let place = folder("bad-text");
    let (text, files) = (place.join("run.txt"), place.join("files"));
    fs::write(&text, "end\nlog\nstop\n").expect("written");
    let (status, output, message) = twin(&["pack", shown(&text), shown(&files)]);
    assert_eq!((status, output.as_str()), (Some(1), ""));
    assert!(message.ends_with("run.txt, line 3: the number after 'stop' is missing\n"), "{message}");
    assert!(!files.exists());
    fs::write(&text, [0xff, 0xfe]).expect("written");
    assert!(twin(&["pack", shown(&text), shown(&files)]).2.contains("is not a text in UTF-8"));
}

/// N5, N8: no image, and no log.
#[test]
fn missing_files_count_as_empty_in_a_run() {
    let place = folder("missing");
    assert_eq!(twin(&["run", shown(&place)]), (Some(0), "config 20 0\n".into(), String::new()));
    fs::write(place.join("config.bin"), worked_case().image).expect("written");
    assert_eq!(twin(&["run", shown(&place)]), (Some(0), String::new(), String::new()));
    let nowhere = place.join("nowhere");
    let (status, _, message) = twin(&["unpack", shown(&nowhere), "unused.txt"]);
    assert!(status == Some(1) && message.contains("has neither config.bin nor events.bin"), "{message}");
}

/// N10, N11: the stream through standard input and output.
#[test]
fn many_answers_a_torn_stream() {
    let mut child = Command::new(env!("CARGO_BIN_EXE_twin"))
        .arg("many")
        .stdin(Stdio::piped())
        .stdout(Stdio::piped())
        .spawn()
        .expect("the twin starts");
    let mut input = child.stdin.take().expect("piped");
    input.write_all(&[0, 0, 0, 0, 1, 0]).expect("written");
    drop(input);
    let output = child.wait_with_output().expect("it ends");
    assert_eq!(output.stdout, b"config 20 0\n.\ntorn\n");
    assert!(output.status.success());
}

/// No rule: the arguments of the twin.
#[test]
fn wrong_arguments_are_named() {
    let wrong: [(&[&str], &str); 21] = [
        (&[], "no command given"),
        (&["fly"], "'fly' is not a command"),
        (&["pack", "one"], "'pack' has other arguments"),
        (&["compare", "--seed"], "the value of --seed is missing"),
        (&["compare", "--seed", "1"], "--runlog is missing"),
        (&["compare", "--speed", "1"], "'--speed' is not an option of this command"),
        (&["selftest", "--seed", "x", "--cases", "1"], "--seed: 'x' is not a number"),
        (&["many", "--wrong", "Nothing"], "there is no wrong twin 'Nothing'"),
        (&["many", "--wrong", "CarriesPlace"], "there is no wrong twin 'CarriesPlace'"),
        (&["report", "--wrong", "GuestClock"], "there is no wrong twin 'GuestClock'"),
        (&["report", "one", "two", "three"], "'report' has other arguments"),
        (&["pack-logs", "one"], "'pack-logs' has other arguments"),
        (&["access", "one", "two", "three"], "'access' has other arguments"),
        (&["access", "--wrong", "CarriesPlace"], "there is no wrong twin 'CarriesPlace'"),
        (&["many", "--wrong", "GapIsClosed"], "there is no wrong twin 'GapIsClosed'"),
        (&["pack-queries", "one"], "'pack-queries' has other arguments"),
        (&["compare", "--accesses", "x", "--seed", "1"], "--runlog is missing"),
        (&["memlog", "one", "two", "three"], "'memlog' has other arguments"),
        (&["memlog", "--wrong", "CopyDelivers"], "there is no wrong twin 'CopyDelivers'"),
        (&["many", "--wrong", "CopiesForwards"], "there is no wrong twin 'CopiesForwards'"),
        (&["compare", "--memlogs", "x", "--seed", "1"], "--runlog is missing"),
    ];
    for (arguments, words) in wrong {
        let (status, output, message) = twin(arguments);
        assert_eq!((status, output.as_str()), (Some(1), ""), "{arguments:?}");
        assert!(message.contains(words), "{arguments:?}: {message}");
    }
}

/// No rule: the making of cases.
#[test]
fn a_generated_case_can_be_made_again() {
    let place = folder("case");
    assert_eq!(twin(&["case", "--seed", "3", "--number", "500", shown(&place)]).0, Some(0));
    let maker = twin::generate::case::CaseMaker::new(3);
    assert_eq!(fs::read(place.join("config.bin")).expect("made"), maker.case(500).image);
    assert_eq!(fs::read(place.join("events.bin")).expect("made"), maker.case(500).log);
    let expected = fs::read_to_string(place.join("expected")).expect("made");
    assert!(expected.ends_with(".\n") && expected.starts_with(&twin(&["state", shown(&place)]).1));
}

/// An output that nobody can read any more, so that nothing can be written to it.
fn closed_output() -> Stdio {
    let mut gone = Command::new("true").stdin(Stdio::piped()).spawn().expect("it starts");
    let input = gone.stdin.take().expect("piped");
    gone.wait().expect("it ends");
    Stdio::from(input)
}

/// N12: a program whose output cannot be written ends without a word.
#[test]
fn an_output_that_cannot_be_written_is_no_matter() {
    let place = folder("closed-output");
    fs::write(place.join("stream"), [0; 4]).expect("written");
    for command in ["run", "state", "report", "access", "memlog", "many"] {
        let mut program = Command::new(env!("CARGO_BIN_EXE_twin"));
        program.arg(command).current_dir(&place).stdin(File::open(place.join("stream")).expect("there"));
        let printed = program.output().expect("the twin starts").stdout;
        assert!(printed.starts_with(b"config 20 0\n"), "{command} has something to write");
        program.stdin(File::open(place.join("stream")).expect("there")).stdout(closed_output());
        let ended = program.output().expect("the twin starts");
        assert_eq!((ended.status.code(), ended.stderr), (Some(0), Vec::new()), "{command}");
    }
}
