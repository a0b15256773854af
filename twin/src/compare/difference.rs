//! A difference between two texts of a run, a report, access queries or a window: where it is, how it is shown,
//! and its files.

use std::fs;
use std::io;
use std::path::{Path, PathBuf};

use crate::access::folder::AccessFolder;
use crate::access::query::queries_of;
use crate::core::flaw::Flaw;
use crate::log::read::{read_record, Record};
use crate::memlog::folder::MemoryFolder;
use crate::readable_text::print::{access_folder_text, event_line, query_line, text_of};
use crate::report::folder::ReportFolder;
use crate::run::frames::Case;

/// The files that a difference is about.
#[derive(Clone, Debug)]
pub enum Subject {
    Run(Case),
    Report(ReportFolder),
    Access(AccessFolder),
    Memory(MemoryFolder),
}

/// Two texts that should have been the same.
#[derive(Clone, Debug)]
pub struct Difference {
    /// The program and the case, in words.
    pub title: String,
    pub subject: Subject,
    pub expected: Vec<u8>,
    pub got: Vec<u8>,
    /// What else was wrong, if something was.
    pub remark: String,
}

/// The first place where two texts part.
#[derive(Debug, Default, PartialEq, Eq)]
pub struct Parting {
    /// The event that the place belongs to; 0 before the first.
    pub event: u64,
    pub expected_answer: String,
    pub got_answer: String,
    pub expected_line: String,
    pub got_line: String,
}

const NOTHING: &str = "(nothing)";

/// More lines than a right report can have.
const LINES_SHOWN: usize = 20;

/// Finds the first differing line, and the answers of its event in both texts.
pub fn first_parting(expected: &[u8], got: &[u8]) -> Parting {
    let mut parting = Parting::default();
    let mut expected_lines = expected.split_inclusive(|byte| *byte == b'\n');
    let mut got_lines = got.split_inclusive(|byte| *byte == b'\n');
    loop {
        let (right, other) = (expected_lines.next(), got_lines.next());
        if let Some(number) = right.and_then(event_number) {
            parting.event = number;
            (parting.expected_answer, parting.got_answer) = (shown(right), shown(other));
        }
        if right != other || right.is_none() {
            parting.expected_line = shown(right);
            parting.got_line = shown(other);
            return parting;
        }
    }
}

fn event_number(line: &[u8]) -> Option<u64> {
    let word = line.split(|byte| *byte == b' ').next()?;
    std::str::from_utf8(word).ok()?.parse().ok()
}

fn shown(line: Option<&[u8]>) -> String {
    match line {
        None => String::from(NOTHING),
        Some(line) => {
            let line = line.strip_suffix(b"\n").unwrap_or(line);
            line[..line.len().min(300)].escape_ascii().to_string()
        }
    }
}

/// The event with this number (from 1) in a log, as a line of text.
fn event_text(log: &[u8], number: u64) -> String {
    let (mut at, mut left) = (0, number);
    while let Record::Event(event, next) = read_record(log, at) {
        left = left.saturating_sub(1);
        if left == 0 {
            return event_line(event);
        }
        at = next;
    }
    String::from("(no event)")
}

/// A whole output, which a report keeps short; of a wrong one no more than its first lines.
fn shown_whole(name: &str, output: &[u8]) -> String {
    let mut text = format!("  {name}:\n");
    let mut lines = output.split_inclusive(|byte| *byte == b'\n').peekable();
    if lines.peek().is_none() {
        text += &format!("    {NOTHING}\n");
    }
    for line in lines.take(LINES_SHOWN) {
        text += &format!("    {}\n", shown(Some(line)));
    }
    text
}

impl Difference {
    /// The report for the one who reads it.
    pub fn report(&self, seed: u64) -> String {
        let mut text = format!("difference: seed {seed}, {}\n", self.title);
        if !self.remark.is_empty() {
            text += &format!("  {}\n", self.remark);
        }
        if self.expected == self.got {
            return text;
        }
        match &self.subject {
            Subject::Run(case) => text + &self.shown_events(&case.log),
            Subject::Report(_) => {
                text + &shown_whole("expected", &self.expected) + &shown_whole("got", &self.got)
            }
            Subject::Access(folder) => text + &self.shown_query(folder.query_bytes()),
            Subject::Memory(folder) => text + &self.shown_events(folder.log_bytes()),
        }
    }

    /// The first line that differs, and the query that it answers.
    fn shown_query(&self, bytes: &[u8]) -> String {
        let lines = |text: &[u8]| text.split_inclusive(|byte| *byte == b'\n').map(<[u8]>::to_vec).collect();
        let (right, other): (Vec<Vec<u8>>, Vec<Vec<u8>>) = (lines(&self.expected), lines(&self.got));
        let same = right.iter().zip(&other).take_while(|(one, two)| one == two).count();
        let (queries, _) = queries_of(bytes, Flaw::None);
        let query = queries.get(same).map_or(String::from("(no query)"), |query| query_line(*query));
        let line = |lines: &[Vec<u8>]| shown(lines.get(same).map(Vec::as_slice));
        let number = same + 1;
        format!(
            "  first differing line: {number}: {query}\n  expected line: {}\n  got line:      {}\n",
            line(&right),
            line(&other)
        )
    }

    /// The first event whose answers differ.
    fn shown_events(&self, log: &[u8]) -> String {
        let parting = first_parting(&self.expected, &self.got);
        let mut text = String::new();
        if parting.event > 0 {
            let event = event_text(log, parting.event);
            text += &format!("  first differing event: {}: {event}\n", parting.event);
            text += &format!("  expected answer: {}\n", parting.expected_answer);
            text += &format!("  got answer:      {}\n", parting.got_answer);
        } else {
            text += "  differs before the first event\n";
        }
        text += &format!("  expected line:   {}\n", parting.expected_line);
        text + &format!("  got line:        {}\n", parting.got_line)
    }

    /// Writes the files of the case into a folder of its own, and answers which.
    pub fn keep(&self, folder: &Path, seed: u64) -> io::Result<PathBuf> {
        let words: Vec<&str> = self.title.split([' ', ',']).filter(|word| !word.is_empty()).collect();
        let folder = folder.join(format!("seed-{seed}-{}", words.join("-")));
        match &self.subject {
            Subject::Report(files) => files.write_into(&folder)?,
            Subject::Access(files) => {
                files.write_into(&folder)?;
                fs::write(folder.join("run.txt"), access_folder_text(files))?;
            }
            Subject::Memory(files) => {
                files.write_into(&folder)?;
                fs::write(folder.join("run.txt"), text_of(&files.case()))?;
            }
            Subject::Run(case) => {
                fs::create_dir_all(&folder)?;
                fs::write(folder.join("config.bin"), &case.image)?;
                fs::write(folder.join("events.bin"), &case.log)?;
                fs::write(folder.join("run.txt"), text_of(case))?;
            }
        }
        fs::write(folder.join("expected"), &self.expected)?;
        fs::write(folder.join("got"), &self.got)?;
        Ok(folder)
    }
}
