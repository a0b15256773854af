//! Cases through the program `many`: frames on one thread, answers on another, every byte compared.

use std::io::{BufReader, Read, Write};
use std::process::{ChildStdout, Stdio};
use std::thread;

use crate::compare::child::{CommandLine, Running};
use crate::compare::difference::{Difference, Subject};
use crate::core::flaw::Flaw;
use crate::run::frames::{answer_stream, frame_of, Case};
use crate::run::text::many_text;

/// How many bytes of a wrong answer are read past the length of the right one.
const EXTRA_BYTES: u64 = 1 << 20;

/// What can go wrong: a difference, or a program that cannot be started at all.
pub enum Trouble {
    Difference(Box<Difference>),
    Failure(String),
}

/// Runs some cases through one process. The first of them has the given number.
pub fn compare_batch(command: &CommandLine, first: usize, cases: &[Case]) -> Result<(), Trouble> {
    let mut running = command.start(None, Stdio::piped()).map_err(Trouble::Failure)?;
    let (input, output) = (running.input.take(), running.output.take());
    let found = thread::scope(|scope| {
        scope.spawn(move || {
            let mut input = input?;
            let mut frames = cases.iter().filter_map(frame_of);
            frames.find_map(|frame| input.write_all(&frame).err())
        });
        let found = compare_answers(&running, output, cases);
        if found.is_some() {
            running.kill();
        }
        found
    });
    let ending = running.finish();
    let (index, got, remark) = match (found, ending) {
        (None, Ok(())) => return Ok(()),
        (Some((index, got)), Ok(())) => (index, got, String::new()),
        (Some((index, got)), Err(remark)) => (index, got, remark),
        (None, Err(remark)) => (cases.len() - 1, None, remark),
    };
    let case = cases[index].clone();
    let expected = many_text(&case.image, &case.log, Flaw::None);
    let got = got.unwrap_or_else(|| expected.clone());
    let title = format!("case {}, program many", first + index);
    let subject = Subject::Run(case);
    Err(Trouble::Difference(Box::new(Difference { title, subject, expected, got, remark })))
}

/// A case by its index here, and what the program said about it.
type Wrong = (usize, Option<Vec<u8>>);

fn compare_answers(running: &Running, output: Option<ChildStdout>, cases: &[Case]) -> Option<Wrong> {
    let mut output = BufReader::with_capacity(1 << 16, output?);
    for (index, case) in cases.iter().enumerate() {
        let expected = many_text(&case.image, &case.log, Flaw::None);
        let mut got = Vec::with_capacity(expected.len());
        let _ = output.by_ref().take(expected.len() as u64).read_to_end(&mut got);
        running.sign_of_life();
        if got != expected {
            let _ = output.by_ref().take(EXTRA_BYTES).read_to_end(&mut got);
            return Some((index, Some(first_answer(got))));
        }
    }
    let mut rest = Vec::new();
    let _ = output.take(EXTRA_BYTES).read_to_end(&mut rest);
    let last = cases.last().filter(|_| !rest.is_empty())?;
    let expected = many_text(&last.image, &last.log, Flaw::None);
    Some((cases.len() - 1, Some([expected, rest].concat())))
}

/// Cuts an output behind its first line that is only a dot.
fn first_answer(mut output: Vec<u8>) -> Vec<u8> {
    let mut end = 0;
    for line in output.split_inclusive(|byte| *byte == b'\n') {
        end += line.len();
        if line == b".\n" {
            break;
        }
    }
    output.truncate(end);
    output
}

/// Streams that end inside a frame, between frames, or at once.
pub fn torn_streams(whole: &Case) -> Vec<Vec<u8>> {
    let frame = frame_of(whole).unwrap_or_default();
    let cuts = [1, 2, 3, 4, 5, 4 + whole.image.len(), frame.len() - 1];
    let mut streams = vec![Vec::new(), frame.clone(), vec![0; 4], vec![0xff; 4]];
    for cut in cuts {
        streams.push(frame[..cut].to_vec());
        streams.push([&frame[..], &frame[..cut]].concat());
    }
    streams
}

/// Sends one stream, whole or torn, and compares the whole output.
pub fn compare_stream(command: &CommandLine, stream: &[u8], whole: &Case) -> Result<(), Trouble> {
    let mut expected = Vec::new();
    if let Err(error) = answer_stream(&mut &stream[..], &mut expected, Flaw::None) {
        return Err(Trouble::Failure(error.to_string()));
    }
    let mut running = command.start(None, Stdio::piped()).map_err(Trouble::Failure)?;
    let (input, output) = (running.input.take(), running.output.take());
    let mut got = Vec::new();
    thread::scope(|scope| {
        scope.spawn(move || input.map(|mut input| input.write_all(stream)));
        let _ = output.map(|output| output.take(EXTRA_BYTES).read_to_end(&mut got));
    });
    let remark = running.finish().err().unwrap_or_default();
    if remark.is_empty() && got == expected {
        return Ok(());
    }
    let title = format!("a stream of {} bytes, program many", stream.len());
    let subject = Subject::Run(whole.clone());
    Err(Trouble::Difference(Box::new(Difference { title, subject, expected, got, remark })))
}
