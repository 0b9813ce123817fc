//! The calls that take a path, by Rust's std.

use crate::fs::{Metadata, OpenOptions};
use std::io::Result;
use std::path::Path;

/// Opens a file.
pub fn open(how: &OpenOptions, path: &Path) -> Result<std::fs::File> {
    how.of_std().open(path)
}

/// Returns what is known of a file, of the one that a symbolic link leads to.
pub fn metadata(path: &Path) -> Result<Metadata> {
    Ok(std::fs::metadata(path)?.into())
}

/// Renames a file.
pub fn rename(from: &Path, to: &Path) -> Result<()> {
    std::fs::rename(from, to)
}

/// Removes a file.
pub fn remove_file(path: &Path) -> Result<()> {
    std::fs::remove_file(path)
}

/// Makes a folder.
pub fn create_dir(path: &Path) -> Result<()> {
    std::fs::create_dir(path)
}

/// Changes the current folder of the process.
pub fn enter(path: &Path) -> Result<()> {
    std::env::set_current_dir(path)
}
