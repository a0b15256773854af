//! Cases through the programs that read files: `runlog`, and `statelog` if it is given; and the folder
//! in which every such program is run.

use std::fs;
use std::io::{self, Read};
use std::path::{Path, PathBuf};
use std::process::Stdio;

use crate::compare::child::CommandLine;
use crate::compare::difference::{Difference, Subject};
use crate::compare::stream::Trouble;
use crate::core::flaw::Flaw;
use crate::core::limits::MAX_LOG_BYTES;
use crate::run::frames::Case;
use crate::run::text::{run_text, Detail};

/// The files of one run; none where the file is missing.
#[derive(Clone, Debug)]
pub struct FileCase {
    pub title: String,
    pub image: Option<Vec<u8>>,
    pub log: Option<Vec<u8>>,
}

impl FileCase {
    fn write_into(&self, folder: &Path) -> io::Result<()> {
        for (name, content) in [("config.bin", &self.image), ("events.bin", &self.log)] {
            if let Some(bytes) = content {
                fs::write(folder.join(name), bytes)?;
            }
        }
        Ok(())
    }
}

/// Runs that only files can show: missing ones, and ones too long for a frame.
pub fn special_files(whole: &Case) -> Vec<FileCase> {
    let Case { image, log } = whole.clone();
    let cut_image = image[..image.len() - 1].to_vec();
    let huge_image = [image.clone(), vec![0x04; 100_000]].concat();
    let cores = vec![0x01; 300_000];
    let log_of = |length: usize| Some(vec![0x10; length]);
    let case = |title: &str, image: Option<Vec<u8>>, log: Option<Vec<u8>>| FileCase {
        title: String::from(title),
        image,
        log,
    };
    vec![
        case("no files", None, None),
        case("no image", None, Some(log.clone())),
        case("no log", Some(image.clone()), None),
        case("empty files", Some(Vec::new()), Some(Vec::new())),
        case("image cut, no log", Some(cut_image.clone()), None),
        case("image cut, log too long", Some(cut_image), log_of(MAX_LOG_BYTES + 1)),
        case("image with 100,000 bytes behind it", Some(huge_image), Some(log)),
        case("image of 300,000 bytes", Some(cores), None),
        case("log of 60,000 bytes", Some(image.clone()), log_of(MAX_LOG_BYTES)),
        case("log of 60,001 bytes", Some(image.clone()), log_of(MAX_LOG_BYTES + 1)),
        case("log of 65,536 bytes", Some(image.clone()), log_of(65_536)),
        case("log of 2,000,000 bytes", Some(image), log_of(2_000_000)),
    ]
}

/// A folder of our own for the files, gone when this value goes.
pub struct Workplace {
    folder: PathBuf,
}

impl Workplace {
    pub fn new() -> io::Result<Workplace> {
        let folder = std::env::temp_dir().join(format!("twin-{}", std::process::id()));
        fs::create_dir_all(&folder)?;
        Ok(Workplace { folder })
    }

    /// Empties the folder, so that nothing of the case before is left, and has it filled.
    pub fn fill(&self, write: impl FnOnce(&Path) -> io::Result<()>) -> Result<(), Trouble> {
        let emptied = fs::remove_dir_all(&self.folder).and_then(|()| fs::create_dir(&self.folder));
        let filled = emptied.and_then(|()| write(&self.folder));
        filled.map_err(|error| Trouble::Failure(format!("cannot write the files of a case: {error}")))
    }

    /// Runs a program on the files that are here and compares its whole output.
    pub fn compare(
        &self,
        command: &CommandLine,
        expected: Vec<u8>,
        title: String,
        subject: impl FnOnce() -> Subject,
    ) -> Result<(), Trouble> {
        let (got, remark) = output_of(command, &self.folder, expected.len())?;
        if remark.is_empty() && got == expected {
            return Ok(());
        }
        let subject = subject();
        Err(Trouble::Difference(Box::new(Difference { title, subject, expected, got, remark })))
    }
}

impl Drop for Workplace {
    fn drop(&mut self) {
        let _ = fs::remove_dir_all(&self.folder);
    }
}

/// A program that reads files, its name, and how much it prints.
pub struct FileProgram {
    pub name: &'static str,
    pub command: CommandLine,
    pub detail: Detail,
}

/// Runs one program on one set of files and compares the whole output.
pub fn compare_files(program: &FileProgram, place: &Workplace, files: &FileCase) -> Result<(), Trouble> {
    place.fill(|folder| files.write_into(folder))?;
    let image = files.image.clone().unwrap_or_default();
    let log = files.log.clone().unwrap_or_default();
    let expected = run_text(&image, &log, program.detail, Flaw::None);
    let title = format!("{}, program {}", files.title, program.name);
    place.compare(&program.command, expected, title, || Subject::Run(Case { image, log }))
}

fn output_of(command: &CommandLine, folder: &Path, length: usize) -> Result<(Vec<u8>, String), Trouble> {
    let mut running = command.start(Some(folder), Stdio::null()).map_err(Trouble::Failure)?;
    let mut got = Vec::new();
    if let Some(output) = running.output.take() {
        let _ = output.take(length as u64 + (1 << 20)).read_to_end(&mut got);
    }
    Ok((got, running.finish().err().unwrap_or_default()))
}
