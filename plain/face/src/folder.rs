//! A folder by its path, in which files are read and saved.

use host_io::DirFolder;
use plain_std::alloc::{Alloc, Global};
use plain_std::fs::{File, Metadata, OpenOptions};
use plain_std::io::{self, ErrorKind};
use plain_std::paths;
use plain_std::rt::Files;
use std::path::{Path, PathBuf};

/// Reaches files by names below a folder.
pub(crate) struct InFolder<'a>(pub(crate) &'a Path);

impl InFolder<'_> {
    /// The error of the system if the folder itself cannot be looked into: without it, no file in
    /// it is there either.
    pub(crate) fn look(&self) -> std::io::Result<()> {
        paths::metadata(self.0).map(|_| ())
    }

    /// The path of a name.
    fn at(&self, name: &str) -> io::Result<PathBuf> {
        let mut path = PathBuf::new();
        // A separator goes between them.
        path.try_reserve(self.0.as_os_str().len() + 1 + name.len())
            .map_err(|_| ErrorKind::OutOfMemory)?;
        path.push(self.0);
        path.push(name);
        Ok(path)
    }
}

impl Alloc for InFolder<'_> {
    type A = Global;

    fn alloc(&self) -> Global {
        Global
    }
}

/// The calls that a load or a save makes.
impl Files for InFolder<'_> {
    type File = File;
    type Dir = io::Stdin;

    fn open_file(&self, how: &OpenOptions, name: &str) -> io::Result<File> {
        Ok(paths::open(how, &self.at(name)?)?.into())
    }

    fn metadata(&self, name: &str) -> io::Result<Metadata> {
        Ok(paths::metadata(&self.at(name)?)?)
    }

    fn rename(&self, from: &str, to: &str) -> io::Result<()> {
        Ok(paths::rename(&self.at(from)?, &self.at(to)?)?)
    }

    fn remove_file(&self, name: &str) -> io::Result<()> {
        Ok(paths::remove_file(&self.at(name)?)?)
    }
}

/// The error of the call that failed last.
pub(crate) fn cause(folder: &DirFolder<'_, InFolder<'_>>) -> std::io::Error {
    match folder.last_failure() {
        Some(failure) => failure.error.into(),
        None => std::io::ErrorKind::Other.into(),
    }
}
