//! The calls that take a path, made by C's functions with the path on the stack.
//!
//! Rust's std of 1.65 and older puts the path of each such call on the heap, and ends the process
//! where memory is refused. Younger versions do so only for long paths.

use crate::fs::{Metadata, OpenOptions};
use libc::{c_char, c_int};
#[cfg(target_os = "linux")]
use libc::{open64 as open_path, stat64 as stat_path, stat64 as Stat};
#[cfg(not(target_os = "linux"))]
use libc::{open as open_path, stat as stat_path, stat as Stat};
use std::io::{Error, ErrorKind, Result};
use std::os::unix::ffi::OsStrExt;
use std::os::unix::io::FromRawFd;
use std::path::Path;

/// The bytes of a path with the zero that ends it. No system takes more.
const MAX_PATH: usize = 4096;

/// Makes a call over a path as C reads it.
fn with_path<T>(path: &Path, call: impl FnOnce(*const c_char) -> T) -> Result<T> {
    let path = path.as_os_str().as_bytes();
    let mut bytes = [0u8; MAX_PATH];
    if path.len() >= MAX_PATH {
        return Err(Error::from_raw_os_error(libc::ENAMETOOLONG));
    }
    if path.contains(&0) {
        return Err(ErrorKind::InvalidInput.into());
    }
    bytes[..path.len()].copy_from_slice(path);
    Ok(call(bytes.as_ptr().cast()))
}

/// Makes a call again as long as a signal interrupts it, and hands on what it answers.
fn answer(mut call: impl FnMut() -> c_int) -> Result<c_int> {
    loop {
        let answer = call();
        if answer != -1 {
            return Ok(answer);
        }
        let error = Error::last_os_error();
        if error.kind() != ErrorKind::Interrupted {
            return Err(error);
        }
    }
}

/// Opens a file.
pub fn open(how: &OpenOptions, path: &Path) -> Result<std::fs::File> {
    let flags = how.unix_flags() | libc::O_CLOEXEC;
    let mode = how.unix_mode();
    // SAFETY: the path is a C string for the time of the call.
    let file = with_path(path, |path| answer(|| unsafe { open_path(path, flags, mode) }))??;
    // SAFETY: the descriptor was opened here, and nothing else owns it.
    Ok(unsafe { std::fs::File::from_raw_fd(file) })
}

/// Returns what is known of a file, of the one that a symbolic link leads to.
pub fn metadata(path: &Path) -> Result<Metadata> {
    // SAFETY: all bytes zero are a value of this plain struct.
    let mut found: Stat = unsafe { std::mem::zeroed() };
    // SAFETY: the path is a C string, and the struct is there, for the time of the call.
    with_path(path, |path| answer(|| unsafe { stat_path(path, &mut found) }))??;
    let kind = found.st_mode & libc::S_IFMT;
    Ok(Metadata::of(kind == libc::S_IFREG, kind == libc::S_IFDIR, found.st_size as u64))
}

/// Renames a file.
pub fn rename(from: &Path, to: &Path) -> Result<()> {
    // SAFETY: both paths are C strings for the time of the call.
    with_path(from, |from| {
        with_path(to, |to| answer(|| unsafe { libc::rename(from, to) }))
    })???;
    Ok(())
}

/// Removes a file.
pub fn remove_file(path: &Path) -> Result<()> {
    // SAFETY: the path is a C string for the time of the call.
    with_path(path, |path| answer(|| unsafe { libc::unlink(path) }))??;
    Ok(())
}

/// Makes a folder, whose permission bits are what the process's mask leaves of 777.
pub fn create_dir(path: &Path) -> Result<()> {
    // SAFETY: the path is a C string for the time of the call.
    with_path(path, |path| answer(|| unsafe { libc::mkdir(path, 0o777) }))??;
    Ok(())
}

/// Changes the current folder of the process.
pub fn enter(path: &Path) -> Result<()> {
    // SAFETY: the path is a C string for the time of the call.
    with_path(path, |path| answer(|| unsafe { libc::chdir(path) }))??;
    Ok(())
}

#[cfg(test)]
mod tests {
    use super::{enter, metadata, open, remove_file, MAX_PATH};
    use crate::fs::OpenOptions;
    use std::io::ErrorKind;
    use std::path::Path;

    #[test]
    fn a_path_with_a_zero_byte_or_without_end_is_refused() {
        let how = OpenOptions::new();
        assert_eq!(open(&how, Path::new("a\0b")).unwrap_err().kind(), ErrorKind::InvalidInput);
        assert_eq!(metadata(Path::new("a\0b")).unwrap_err().kind(), ErrorKind::InvalidInput);
        let long = "x".repeat(MAX_PATH);
        assert_eq!(remove_file(Path::new(&long)).unwrap_err().raw_os_error(), Some(libc::ENAMETOOLONG));
        assert_eq!(enter(Path::new("/nowhere/at/all")).unwrap_err().kind(), ErrorKind::NotFound);
    }

    #[test]
    fn kinds_and_sizes_are_those_of_the_system() {
        let name = std::env::temp_dir().join(format!("plain_std_paths_{}", std::process::id()));
        let path = name.as_path();
        std::fs::write(&name, b"twelve bytes").unwrap();
        let found = metadata(path).unwrap();
        assert!(found.is_file() && !found.is_dir() && found.len() == 12);
        assert!(metadata(Path::new("/")).unwrap().is_dir());
        remove_file(path).unwrap();
        assert_eq!(metadata(path).unwrap_err().kind(), ErrorKind::NotFound);
    }
}
