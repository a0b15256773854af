//! The folder of access queries: an image and its queries, as files and in memory.

use std::fs;
use std::io::{self, ErrorKind};
use std::path::Path;

use crate::access::text::access_text;
use crate::core::flaw::Flaw;

/// The two files; none where the file is missing.
#[derive(Clone, Debug, Default, PartialEq, Eq)]
pub struct AccessFolder {
    pub image: Option<Vec<u8>>,
    pub queries: Option<Vec<u8>>,
}

impl AccessFolder {
    /// Two files that are both there.
    pub fn of(image: &[u8], queries: &[u8]) -> AccessFolder {
        AccessFolder { image: Some(image.to_vec()), queries: Some(queries.to_vec()) }
    }

    /// The files in a folder of the file system.
    pub fn read(folder: &Path) -> AccessFolder {
        let content = |name: &str| fs::read(folder.join(name)).ok();
        AccessFolder { image: content("config.bin"), queries: content("queries.bin") }
    }

    /// The image's bytes; none where it is missing (N8).
    pub fn image_bytes(&self) -> &[u8] {
        self.image.as_deref().unwrap_or_default()
    }

    /// The bytes of the queries; none where their file is missing (N25).
    pub fn query_bytes(&self) -> &[u8] {
        self.queries.as_deref().unwrap_or_default()
    }

    /// What `access` prints for these files.
    pub fn answers(&self, flaw: Flaw) -> Vec<u8> {
        access_text(self.image_bytes(), self.query_bytes(), flaw)
    }

    /// Makes the files in a folder; one that is missing here goes from there.
    pub fn write_into(&self, folder: &Path) -> io::Result<()> {
        fs::create_dir_all(folder)?;
        for (name, content) in [("config.bin", &self.image), ("queries.bin", &self.queries)] {
            match content {
                Some(bytes) => fs::write(folder.join(name), bytes)?,
                None => remove(&folder.join(name))?,
            }
        }
        Ok(())
    }
}

/// Takes away a file, if there is one.
fn remove(path: &Path) -> io::Result<()> {
    match fs::remove_file(path) {
        Err(error) if error.kind() != ErrorKind::NotFound => Err(error),
        _ => Ok(()),
    }
}
