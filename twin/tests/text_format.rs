//! The readable text: to bytes and back, for good and for bad bytes, and its error messages.

mod common;

use common::{counted_copy, extent, worked_case};
use twin::generate::case::CaseMaker;
use twin::log::write::log_of;
use twin::readable_text::parse::case_of;
use twin::readable_text::print::text_of;
use twin::run::frames::Case;

const WORKED: &str = "\
core vms 2 queue 1
vm entry 0x1000 handler 0x1004
vm entry 0x2000 handler 0x2004
slot vm 0 ticks 2
slot vm 1 ticks 1
slot spare ticks 1
end

log
start
tick 0x0
write offset 8 value 0x88
write offset 32 value 0x80
tick 0x1010
call service 1 argument 0 next 0x1040
call service 4 argument 0 next 0x1014
call service 4 argument 0 next 0x1018
tick 0x1020
tick 0x2008
stop 2
stop 0
tick 0x0
";

const TOO_MANY_EXTENTS: &str = "log
copy count 1 next 0 extent 0 0 0 extent 0 0 0 extent 0 0 0 extent 0 0 0 extent 0 0 0 extent 0 0 0 \
extent 0 0 0 extent 0 0 0 extent 0 0 0";

fn message(text: &str) -> (usize, String) {
    let error = case_of(text).expect_err("this text is wrong");
    (error.line, error.message)
}

/// No rule: the readable text is the twin's own.
#[test]
fn the_worked_example_both_ways() {
    assert_eq!(text_of(&worked_case()), WORKED);
    assert_eq!(case_of(WORKED), Ok(worked_case()));
}

/// No rule: the form of the readable text.
#[test]
fn comments_spaces_and_both_kinds_of_numbers() {
    let text = "  # a comment\n\n core  vms 0x2 queue 1 # more\r\nraw 0a FF\nlog # here\n\ttick 4112\nraw";
    let case = case_of(text).expect("a good text");
    assert_eq!(case.image, [1, 2, 1, 0x0a, 0xff]);
    assert_eq!(case.log, [0x11, 0x10, 0x10, 0, 0]);
}

/// I15: a region as a line, both ways.
#[test]
fn a_region_is_one_line() {
    let line = "region vm 0 permission 2 start 0x20000000 last 0x20000fff\n";
    let record = [5, 0, 2, 0, 0, 0, 0x20, 0xff, 0x0f, 0, 0x20];
    let case = Case { image: record.to_vec(), log: Vec::new() };
    assert_eq!(text_of(&case), format!("{line}\nlog\n"));
    assert_eq!(case_of(line), Ok(case));
    let decimal = case_of("region vm 255 permission 0 start 4294967295 last 0x1").expect("a good text");
    assert_eq!(decimal.image, [5, 255, 0, 255, 255, 255, 255, 1, 0, 0, 0]);
}

/// E13: a Copy as a line, both ways; extents of zeros at its end are left out.
#[test]
fn a_copy_is_one_line() {
    let line = "copy count 2 next 0x1010 extent 0x40000000 0x40001000 16 extent 0x0 0x0 0 extent 0x1 0x2 3\n";
    let named = [extent(0x4000_0000, 0x4000_1000, 16), extent(0, 0, 0), extent(1, 2, 3)];
    let case = Case { image: Vec::new(), log: log_of(&[counted_copy(2, &named)]) };
    assert_eq!(case.log.len(), 102);
    assert_eq!(text_of(&case), format!("\nlog\n{line}"));
    assert_eq!(case_of(&format!("log\n{line}")), Ok(case));
    let bare = Case { image: Vec::new(), log: log_of(&[counted_copy(255, &[])]) };
    assert_eq!(text_of(&bare), "\nlog\ncopy count 255 next 0x1010\n");
    assert_eq!(case_of("log\ncopy count 255 next 4112 # no extents\n"), Ok(bare.clone()));
    assert_eq!(case_of("log\ncopy count 0xff next 4112 extent 0 0 0"), Ok(bare));
    let full = Case { image: Vec::new(), log: log_of(&[counted_copy(8, &[extent(7, 8, u32::MAX); 8])]) };
    assert_eq!(text_of(&full).matches(" extent 0x7 0x8 4294967295").count(), 8);
    assert_eq!(case_of(&text_of(&full)), Ok(full));
}

/// No rule: the readable text keeps every byte.
#[test]
fn any_bytes_come_back() {
    let maker = CaseMaker::new(21);
    for number in 0..1_500 {
        let case = maker.case(number);
        assert_eq!(case_of(&text_of(&case)), Ok(case), "case {number}");
    }
    for byte in 0..=255 {
        let case = Case { image: vec![byte, 255, 0], log: vec![byte; 7] };
        assert_eq!(case_of(&text_of(&case)), Ok(case));
    }
    assert_eq!(text_of(&Case::default()), "\nlog\n");
}

/// No rule: the raw lines of the readable text.
#[test]
fn bytes_that_are_no_record_stand_raw() {
    let case = Case { image: vec![4, 9, 4], log: vec![0x10, 0x11, 1, 2] };
    assert_eq!(text_of(&case), "end\nraw 09 04\n\nlog\nstart\nraw 11 01 02\n");
}

/// No rule: the messages about a wrong text.
#[test]
fn errors_name_the_line_and_the_matter() {
    let wrong = [
        ("end\nstart\n", 2, "'start' is not known here; expected core, vm, region, slot, end, raw or log"),
        ("log\n\nlog", 3, "'log' is not known here"),
        ("core vms 2", 1, "the line ends where 'queue' should stand"),
        ("core queue 2", 1, "'queue' stands where 'vms' should"),
        ("core vms two queue 1", 1, "'two' after 'vms' is not a number"),
        ("core vms 256 queue 1", 1, "256 after 'vms' does not fit in 8 bits"),
        ("slot vm 0 ticks 65536", 1, "65536 after 'ticks' does not fit in 16 bits"),
        ("slot 0 ticks 1", 1, "'0' is not known here; expected 'vm NUMBER' or 'spare'"),
        ("slot", 1, "the line ends where 'vm NUMBER' or 'spare' should stand"),
        ("end end", 1, "'end' stands behind the end of the record"),
        ("region vm 0 permission 2 start 0", 1, "the line ends where 'last' should stand"),
        ("region vm 256 permission 2 start 0 last 0", 1, "256 after 'vm' does not fit in 8 bits"),
        ("region vm 0 permission 0x100 start 0 last 0", 1, "0x100 after 'permission' does not fit in 8 bits"),
        ("region vm 0 permission 1 start 0 last 4294967296", 1, "after 'last' does not fit in 32 bits"),
        ("region vm 0 start 0 last 0", 1, "'start' stands where 'permission' should"),
        ("log\nregion vm 0 permission 1 start 0 last 0", 2, "'region' is not known here; expected start"),
        ("log\ntick", 2, "the number after 'tick' is missing"),
        ("log\ntick 0x", 2, "'0x' after 'tick' is not a number"),
        ("log\ntick -1", 2, "'-1' after 'tick' is not a number"),
        ("log\ntick 0x100000000", 2, "0x100000000 after 'tick' does not fit in 32 bits"),
        ("log\ntick 99999999999999999999", 2, "does not fit in 32 bits"),
        ("log\ncopy next 0", 2, "'next' stands where 'count' should"),
        ("log\ncopy count 256 next 0", 2, "256 after 'count' does not fit in 8 bits"),
        ("log\ncopy count 1", 2, "the line ends where 'next' should stand"),
        ("log\ncopy count 1 next 0 extent 1 2", 2, "the number after 'extent' is missing"),
        ("log\ncopy count 1 next 0 extent 1 2 4294967296", 2, "after 'extent' does not fit in 32 bits"),
        ("log\ncopy count 1 next 0 1 2 3", 2, "'1' is not known here; expected 'extent SOURCE DESTINATION"),
        (TOO_MANY_EXTENTS, 2, "'extent' is not known here; expected no more extents than 8"),
        ("raw 1", 1, "'1' is not a byte of two hexadecimal digits"),
        ("raw +1", 1, "'+1' is not a byte of two hexadecimal digits"),
    ];
    for (text, line, words) in wrong {
        let (found, message) = message(text);
        assert_eq!(found, line, "{text}: {message}");
        assert!(message.contains(words), "{text}: {message}");
    }
}
