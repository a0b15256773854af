//! The folder of a report: an image and its logs, as files and in memory.

use std::fs::{self, File};
use std::io::{self, Read};
use std::path::Path;

use crate::core::flaw::Flaw;
use crate::core::limits::MAX_REPORT_LOGS;
use crate::report::figures::report_text;

/// What stands under the name of a log.
#[derive(Clone, Debug, PartialEq, Eq)]
pub enum LogFile {
    Missing,
    Bytes(Vec<u8>),
    /// A folder opens as a file does, but cannot be read.
    Folder,
}

/// The files of a report; the logs stand by their numbers.
#[derive(Clone, Debug, Default, PartialEq, Eq)]
pub struct ReportFolder {
    pub image: Option<Vec<u8>>,
    pub logs: Vec<LogFile>,
}

/// The name of a log by its number.
pub fn log_name(number: usize) -> String {
    format!("log{number:02}.bin")
}

impl ReportFolder {
    /// An image and logs that are all there.
    pub fn of(image: &[u8], logs: impl IntoIterator<Item = Vec<u8>>) -> ReportFolder {
        let logs = logs.into_iter().map(LogFile::Bytes).collect();
        ReportFolder { image: Some(image.to_vec()), logs }
    }

    /// What stands in a folder of the file system under the names of the image and the logs, and under the
    /// first name behind these: where the list ends is for the report to say.
    pub fn read(folder: &Path) -> ReportFolder {
        let log = |number| content(&folder.join(log_name(number)));
        let mut logs: Vec<LogFile> = (0..=MAX_REPORT_LOGS)
            .map(|number| log(number).map_or(LogFile::Missing, LogFile::Bytes))
            .collect();
        while logs.last() == Some(&LogFile::Missing) {
            logs.pop();
        }
        ReportFolder { image: content(&folder.join("config.bin")), logs }
    }

    /// The image's bytes; none where it is missing.
    pub fn image_bytes(&self) -> &[u8] {
        self.image.as_deref().unwrap_or_default()
    }

    /// What a reader gets under each name, if it opens.
    pub fn opened(&self) -> Vec<Option<Vec<u8>>> {
        let opened = |log: &LogFile| match log {
            LogFile::Missing => None,
            LogFile::Bytes(bytes) => Some(bytes.clone()),
            LogFile::Folder => Some(Vec::new()),
        };
        self.logs.iter().map(opened).collect()
    }

    /// The logs that a report reads: those before the first that is missing, sixteen at most.
    pub fn listed(&self) -> Vec<Vec<u8>> {
        self.opened().into_iter().take(MAX_REPORT_LOGS).map_while(|log| log).collect()
    }

    /// What `report` prints for these files.
    pub fn report(&self, flaw: Flaw) -> Vec<u8> {
        report_text(self.image_bytes(), &self.opened(), flaw)
    }

    /// Makes the files in a folder. Other logs go from there: they would be read along with these.
    pub fn write_into(&self, folder: &Path) -> io::Result<()> {
        fs::create_dir_all(folder)?;
        match &self.image {
            Some(image) => fs::write(folder.join("config.bin"), image)?,
            None => remove(&folder.join("config.bin"))?,
        }
        for number in 0..self.logs.len().max(MAX_REPORT_LOGS) {
            let path = folder.join(log_name(number));
            remove(&path)?;
            match self.logs.get(number) {
                None | Some(LogFile::Missing) => {}
                Some(LogFile::Bytes(bytes)) => fs::write(path, bytes)?,
                Some(LogFile::Folder) => fs::create_dir(path)?,
            }
        }
        Ok(())
    }
}

/// What can be read of a file; none where it does not open.
fn content(path: &Path) -> Option<Vec<u8>> {
    let mut file = File::open(path).ok()?;
    let mut bytes = Vec::new();
    // A file that opens and cannot be read holds what was read of it before (rule N20).
    let _ = file.read_to_end(&mut bytes);
    Some(bytes)
}

/// Takes away a file or an empty folder, if there is one.
fn remove(path: &Path) -> io::Result<()> {
    match path.is_dir() {
        true => fs::remove_dir(path),
        false if path.exists() => fs::remove_file(path),
        false => Ok(()),
    }
}
