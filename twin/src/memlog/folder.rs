//! The folder of a run with its memory: an image, a log and a memory, as files and in memory.

use std::fs;
use std::io::{self, ErrorKind};
use std::path::Path;

use crate::core::flaw::Flaw;
use crate::memlog::text::memory_text;
use crate::run::frames::Case;

/// Under the name of the memory there can stand what can stand under that of a log: nothing, bytes, a folder.
pub use crate::report::folder::LogFile as MemoryFile;

/// The three files; none where the file is missing.
#[derive(Clone, Debug, PartialEq, Eq)]
pub struct MemoryFolder {
    pub image: Option<Vec<u8>>,
    pub log: Option<Vec<u8>>,
    pub memory: MemoryFile,
}

impl MemoryFolder {
    /// Three files that are all there.
    pub fn of(image: &[u8], log: &[u8], memory: &[u8]) -> MemoryFolder {
        let memory = MemoryFile::Bytes(memory.to_vec());
        MemoryFolder { image: Some(image.to_vec()), log: Some(log.to_vec()), memory }
    }

    /// The files in a folder of the file system. A folder in place of the memory opens and cannot be read.
    pub fn read(folder: &Path) -> MemoryFolder {
        let content = |name: &str| fs::read(folder.join(name)).ok();
        let memory = match content(MEMORY_NAME) {
            Some(bytes) => MemoryFile::Bytes(bytes),
            None if folder.join(MEMORY_NAME).is_dir() => MemoryFile::Folder,
            None => MemoryFile::Missing,
        };
        MemoryFolder { image: content("config.bin"), log: content("events.bin"), memory }
    }

    /// The image's bytes; none where it is missing (N8).
    pub fn image_bytes(&self) -> &[u8] {
        self.image.as_deref().unwrap_or_default()
    }

    /// The log's bytes; none where it is missing (N8).
    pub fn log_bytes(&self) -> &[u8] {
        self.log.as_deref().unwrap_or_default()
    }

    /// The bytes of the memory; none where it is missing or cannot be read (N26).
    pub fn memory_bytes(&self) -> &[u8] {
        match &self.memory {
            MemoryFile::Bytes(bytes) => bytes,
            MemoryFile::Missing | MemoryFile::Folder => &[],
        }
    }

    /// The run alone, without its memory.
    pub fn case(&self) -> Case {
        Case { image: self.image_bytes().to_vec(), log: self.log_bytes().to_vec() }
    }

    /// What `memlog` prints for these files.
    pub fn text(&self, flaw: Flaw) -> Vec<u8> {
        memory_text(self.image_bytes(), self.log_bytes(), self.memory_bytes(), flaw)
    }

    /// Makes the files in a folder; one that is missing here goes from there.
    pub fn write_into(&self, folder: &Path) -> io::Result<()> {
        fs::create_dir_all(folder)?;
        for (name, content) in [("config.bin", &self.image), ("events.bin", &self.log)] {
            remove(&folder.join(name))?;
            if let Some(bytes) = content {
                fs::write(folder.join(name), bytes)?;
            }
        }
        let path = folder.join(MEMORY_NAME);
        remove(&path)?;
        match &self.memory {
            MemoryFile::Missing => Ok(()),
            MemoryFile::Bytes(bytes) => fs::write(path, bytes),
            MemoryFile::Folder => fs::create_dir(path),
        }
    }
}

const MEMORY_NAME: &str = "memory.bin";

/// Takes away a file or an empty folder, if there is one.
fn remove(path: &Path) -> io::Result<()> {
    let removed = if path.is_dir() { fs::remove_dir(path) } else { fs::remove_file(path) };
    match removed {
        Err(error) if error.kind() != ErrorKind::NotFound => Err(error),
        _ => Ok(()),
    }
}
