//! Streams of cases: whole ones, torn ones, and what is answered to them.

mod common;

use common::{worked_case, worked_lines};
use twin::core::flaw::Flaw;
use twin::run::frames::{answer_stream, frame_of, read_frame, Case, Frame};
use twin::run::text::{many_text, run_text, Detail};

fn answer(stream: &[u8]) -> Vec<u8> {
    let mut output = Vec::new();
    answer_stream(&mut &stream[..], &mut output, Flaw::None).expect("memory can be written");
    output
}

fn worked_answer() -> Vec<u8> {
    let case = worked_case();
    many_text(&case.image, &case.log, Flaw::None)
}

/// N10: the head of a case, up to the greatest lengths.
#[test]
fn a_frame_has_its_lengths_in_front() {
    let frame = frame_of(&worked_case()).expect("short enough");
    assert_eq!(frame[..4], [34, 0, worked_case().log.len() as u8, 0]);
    assert_eq!(read_frame(&mut &frame[..]).expect("readable"), Frame::Case(worked_case()));
    let longest = Case { image: vec![7; 65_535], log: vec![8; 65_535] };
    let frame = frame_of(&longest).expect("just short enough");
    assert_eq!(frame.len(), 4 + 2 * 65_535);
    assert_eq!(read_frame(&mut &frame[..]).expect("readable"), Frame::Case(longest));
    assert_eq!(frame_of(&Case { image: vec![0; 65_536], log: vec![] }), None);
    assert_eq!(frame_of(&Case { image: vec![], log: vec![0; 65_536] }), None);
}

/// N5, N6, N10: what follows the states, for good images and refused ones.
#[test]
fn the_answer_holds_the_lines_the_image_and_a_dot() {
    let Case { image, log } = worked_case();
    assert!(worked_answer().starts_with(&run_text(&image, &log, Detail::States, Flaw::None)));
    let text = String::from_utf8(worked_answer()).expect("ascii");
    let lines: Vec<&str> = text.lines().filter(|line| line.as_bytes()[0].is_ascii_digit()).collect();
    assert_eq!(lines, worked_lines().lines().collect::<Vec<_>>());
    let image = "image 01020102001000000410000002002000000420000003000200030101000\
                 3ff010004\n.\n";
    assert!(text.ends_with(image), "{text}");
    assert_eq!(many_text(&[1], &[], Flaw::None), b"config 20 0\n.\n");
    let long = many_text(&worked_case().image, &[0; 60_001], Flaw::None);
    assert!(long.starts_with(b"long\nimage 0102") && long.ends_with(b"04\n.\n"));
}

/// N10, N11: no case, one, two.
#[test]
fn a_stream_that_ends_between_frames_ends_quietly() {
    let frame = frame_of(&worked_case()).expect("short enough");
    assert_eq!(answer(&[]), b"");
    assert_eq!(answer(&frame), worked_answer());
    assert_eq!(answer(&[&frame[..], &frame].concat()), [worked_answer(), worked_answer()].concat());
    assert_eq!(answer(&[0; 8]), b"config 20 0\n.\nconfig 20 0\n.\n");
}

/// N11: every place where a case can be torn.
#[test]
fn a_stream_that_ends_inside_a_frame_is_torn() {
    let frame = frame_of(&worked_case()).expect("short enough");
    for cut in 1..frame.len() {
        assert_eq!(answer(&frame[..cut]), b"torn\n", "cut at {cut}");
        let second = [&frame[..], &frame[..cut]].concat();
        assert_eq!(answer(&second), [worked_answer(), b"torn\n".to_vec()].concat());
    }
}
