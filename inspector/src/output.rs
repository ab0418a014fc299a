//! Writing what is shown: to standard output, and to a page's file.

use std::fs::{self, File};
use std::io::{self, Write};
use std::path::{Path, PathBuf};

/// Writes a text to standard output; a closed pipe and a full disk are errors.
pub fn print(text: &str) -> io::Result<()> {
    let mut output = io::stdout().lock();
    output.write_all(text.as_bytes())?;
    output.flush()
}

/// Writes a file whole or not at all: beside it first, then in its place. What is no plain file, such as a
/// device, is written to as it is.
pub fn write_file(path: &Path, text: &str) -> io::Result<()> {
    let target = fs::canonicalize(path).unwrap_or_else(|_| path.into());
    if fs::metadata(&target).is_ok_and(|found| !found.is_file()) {
        return File::options()
            .write(true)
            .open(&target)?
            .write_all(text.as_bytes());
    }
    let draft = Draft::beside(&target)?;
    let mut file = File::options()
        .write(true)
        .create_new(true)
        .open(&draft.0)?;
    file.write_all(text.as_bytes())?;
    file.sync_all()?;
    fs::rename(&draft.0, &target)
}

/// A file that goes when the value does, unless it was renamed.
struct Draft(PathBuf);

impl Draft {
    fn beside(target: &Path) -> io::Result<Self> {
        let name = target
            .file_name()
            .ok_or_else(|| io::Error::other("it has no name of a file"))?;
        let mut draft = std::ffi::OsString::from(".");
        draft.push(name);
        draft.push(format!(".{}", std::process::id()));
        Ok(Self(target.with_file_name(draft)))
    }
}

impl Drop for Draft {
    fn drop(&mut self) {
        // There is none after the renaming.
        let _ = fs::remove_file(&self.0);
    }
}
