//! For `std::fs`: Rust's, where names are text.

use crate::alloc::Global;
use crate::string::String;
use std::ffi::OsStr;
pub use std::fs::*;
use std::io::{ErrorKind, Result};

/// In Rattle a trait opens files.
pub trait OpenFile {}

fn text(name: &OsStr) -> Result<String> {
    let name = name.to_str().ok_or(ErrorKind::InvalidFilename)?;
    Ok(String::from_str(Global, name)?)
}

/// The name of a file behind all links.
pub struct PathBuf(String);

impl PathBuf {
    pub fn into_string(self) -> String {
        self.0
    }
}

pub fn canonicalize(path: &str) -> Result<PathBuf> {
    text(std::fs::canonicalize(path)?.as_os_str()).map(PathBuf)
}

/// A file of a folder.
pub struct DirEntry(String);

impl DirEntry {
    pub fn file_name(&self) -> &str {
        &self.0
    }
}

/// The files of a folder. One whose name is no text is an error of its own.
pub fn read_dir(path: &str) -> Result<impl Iterator<Item = Result<DirEntry>>> {
    Ok(std::fs::read_dir(path)?.map(|entry| text(&entry?.file_name()).map(DirEntry)))
}

#[cfg(test)]
mod tests {
    use super::*;
    use std::os::unix::ffi::OsStrExt;

    #[test]
    fn a_name_that_is_no_text_is_an_error_of_its_own() -> Result<()> {
        assert_eq!(text(OsStr::new("text"))?.as_str(), "text");
        let found = text(OsStr::from_bytes(b"\xff")).unwrap_err();
        assert_eq!(found.kind(), ErrorKind::InvalidFilename);
        Ok(())
    }

    #[test]
    fn a_folder_has_its_files() -> Result<()> {
        let here = env!("CARGO_MANIFEST_DIR");
        let mut found = Vec::new();
        for entry in read_dir(&format!("{here}/."))? {
            found.push(entry?.file_name().to_string());
        }
        found.sort();
        assert_eq!(found, ["Cargo.toml", "src"]);
        let plain = canonicalize(&format!("{here}/src/../src"))?.into_string();
        assert!(plain.ends_with("/src") && !plain.contains(".."), "{plain}");
        Ok(())
    }
}
