//! Files, as a handle reaches them.

use crate::alloc::{Alloc, Global};
use crate::io::{self, Read as _};
use crate::rt::Files;
use crate::string::String;
use crate::vec::Vec;
use std::io::{Read as _, Seek as _, Write as _};

pub use std::fs::Permissions;

/// Why a file is not locked.
#[derive(Debug)]
pub enum TryLockError {
    /// A fault of the system.
    Error(std::io::Error),
    /// Another has locked it.
    WouldBlock,
}

/// What is known of a file.
#[derive(Clone, Debug)]
pub struct Metadata {
    is_file: bool,
    is_dir: bool,
    len: u64,
}

impl Metadata {
    /// Returns what would be known of a regular file of `len` bytes.
    pub fn of_file(len: u64) -> Metadata {
        Metadata {
            is_file: true,
            is_dir: false,
            len,
        }
    }

    /// Returns what is known of a file of one kind or another.
    #[cfg(unix)]
    pub(crate) fn of(is_file: bool, is_dir: bool, len: u64) -> Metadata {
        Metadata {
            is_file,
            is_dir,
            len,
        }
    }

    /// Returns whether it is a regular file.
    pub fn is_file(&self) -> bool {
        self.is_file
    }

    /// Returns whether it is a folder.
    pub fn is_dir(&self) -> bool {
        self.is_dir
    }

    /// Returns the size in bytes.
    #[allow(clippy::len_without_is_empty)]
    pub fn len(&self) -> u64 {
        self.len
    }
}

impl From<std::fs::Metadata> for Metadata {
    fn from(found: std::fs::Metadata) -> Metadata {
        Metadata {
            is_file: found.is_file(),
            is_dir: found.is_dir(),
            len: found.len(),
        }
    }
}

/// An open file.
#[derive(Debug)]
pub struct File(pub(crate) std::fs::File);

impl File {
    /// Opens a file to be read.
    pub fn open<R: Files>(rt: &R, path: &str) -> io::Result<R::File> {
        open(rt, path)
    }

    /// Locks the file, unless another process has.
    #[cfg(unix)]
    pub fn try_lock(&self) -> Result<(), TryLockError> {
        use std::os::unix::io::AsRawFd;
        // SAFETY: the descriptor is open.
        if unsafe { libc::flock(self.0.as_raw_fd(), libc::LOCK_EX | libc::LOCK_NB) } == 0 {
            return Ok(());
        }
        let error = std::io::Error::last_os_error();
        match error.kind() {
            std::io::ErrorKind::WouldBlock => Err(TryLockError::WouldBlock),
            _ => Err(TryLockError::Error(error)),
        }
    }

    /// Refuses: std locks no file in the oldest Rust that builds this, and `flock` is of Unix.
    #[cfg(not(unix))]
    pub fn try_lock(&self) -> Result<(), TryLockError> {
        Err(TryLockError::Error(std::io::ErrorKind::Unsupported.into()))
    }
}

impl From<std::fs::File> for File {
    fn from(file: std::fs::File) -> File {
        File(file)
    }
}

impl io::Read for File {
    fn read(&mut self, buf: &mut [u8]) -> io::Result<usize> {
        Ok(self.0.read(buf)?)
    }
}

impl io::Write for File {
    fn write(&mut self, bytes: &[u8]) -> io::Result<usize> {
        Ok(self.0.write(bytes)?)
    }

    fn flush(&mut self) -> io::Result<()> {
        Ok(())
    }
}

impl io::Seek for File {
    fn seek(&mut self, to: io::SeekFrom) -> io::Result<u64> {
        Ok(self.0.seek(to)?)
    }
}

/// The calls of an open file beside reading and writing.
pub trait OpenFile {
    /// Returns what is known of the file.
    fn metadata(&self) -> io::Result<Metadata>;

    /// Cuts or lengthens the file.
    fn set_len(&self, size: u64) -> io::Result<()>;

    /// Asks the system to write the file to the disk.
    fn sync_all(&self) -> io::Result<()>;

    /// Asks the system to write the file's bytes to the disk.
    fn sync_data(&self) -> io::Result<()>;
}

impl OpenFile for File {
    fn metadata(&self) -> io::Result<Metadata> {
        Ok(self.0.metadata()?.into())
    }

    fn set_len(&self, size: u64) -> io::Result<()> {
        Ok(self.0.set_len(size)?)
    }

    fn sync_all(&self) -> io::Result<()> {
        Ok(self.0.sync_all()?)
    }

    fn sync_data(&self) -> io::Result<()> {
        Ok(self.0.sync_data()?)
    }
}

/// How a file is opened.
#[derive(Clone, Debug)]
pub struct OpenOptions {
    read: bool,
    write: bool,
    append: bool,
    truncate: bool,
    create: bool,
    create_new: bool,
    mode: u32,
}

impl Default for OpenOptions {
    fn default() -> OpenOptions {
        OpenOptions::new()
    }
}

impl OpenOptions {
    /// Returns options that open nothing.
    pub fn new() -> OpenOptions {
        OpenOptions {
            read: false,
            write: false,
            append: false,
            truncate: false,
            create: false,
            create_new: false,
            mode: 0o666,
        }
    }

    /// The file is read.
    pub fn read(&mut self, yes: bool) -> &mut OpenOptions {
        self.read = yes;
        self
    }

    /// The file is written.
    pub fn write(&mut self, yes: bool) -> &mut OpenOptions {
        self.write = yes;
        self
    }

    /// The file is made, and must not be there.
    pub fn create_new(&mut self, yes: bool) -> &mut OpenOptions {
        self.create_new = yes;
        self
    }

    /// Opens a file so.
    pub fn open<R: Files>(&self, rt: &R, path: &str) -> io::Result<R::File> {
        rt.open_file(self, path)
    }

    /// Returns the options as those of std.
    #[cfg(not(unix))]
    pub(crate) fn of_std(&self) -> std::fs::OpenOptions {
        let mut how = std::fs::OpenOptions::new();
        how.read(self.read).write(self.write).append(self.append);
        how.truncate(self.truncate)
            .create(self.create)
            .create_new(self.create_new);
        how
    }

    /// Returns the options as the flags of C's `open`.
    #[cfg(unix)]
    pub(crate) fn unix_flags(&self) -> libc::c_int {
        let access = match (self.read, self.write || self.append) {
            (true, true) => libc::O_RDWR,
            (false, true) => libc::O_WRONLY,
            (_, false) => libc::O_RDONLY,
        };
        let flag = |set: bool, flag: libc::c_int| if set { flag } else { 0 };
        access
            | flag(self.append, libc::O_APPEND)
            | flag(self.truncate, libc::O_TRUNC)
            | flag(self.create || self.create_new, libc::O_CREAT)
            | flag(self.create_new, libc::O_EXCL)
    }

    /// Returns the permission bits of a file that is made, as C's `open` takes them.
    #[cfg(unix)]
    pub(crate) fn unix_mode(&self) -> libc::c_uint {
        self.mode as libc::c_uint
    }
}

/// The options that Unix has. Elsewhere a mode changes nothing.
pub trait OpenOptionsExt {
    /// Sets the permission bits of a file that is made.
    fn mode(&mut self, mode: u32) -> &mut Self;
}

impl OpenOptionsExt for OpenOptions {
    fn mode(&mut self, mode: u32) -> &mut OpenOptions {
        self.mode = mode;
        self
    }
}

/// Opens a file to be read.
pub fn open<R: Files>(rt: &R, path: &str) -> io::Result<R::File> {
    OpenOptions::new().read(true).open(rt, path)
}

/// Returns what is known of a file.
pub fn metadata<R: Files>(rt: &R, path: &str) -> io::Result<Metadata> {
    rt.metadata(path)
}

/// Renames a file.
pub fn rename<R: Files>(rt: &R, from: &str, to: &str) -> io::Result<()> {
    rt.rename(from, to)
}

/// Removes a file.
pub fn remove_file<R: Files>(rt: &R, path: &str) -> io::Result<()> {
    rt.remove_file(path)
}

/// Makes a folder.
pub fn create_dir<R: Files>(rt: &R, path: &str) -> io::Result<()> {
    rt.create_dir(path)
}

/// Gives a file one more name.
pub fn hard_link<R: Files>(rt: &R, original: &str, link: &str) -> io::Result<()> {
    rt.hard_link(original, link)
}

/// Makes a symbolic link.
pub fn symlink<R: Files>(rt: &R, original: &str, link: &str) -> io::Result<()> {
    rt.symlink(original, link)
}

/// Writes a whole file, in the place of one that is there.
pub fn write<R: Files>(rt: &R, path: &str, bytes: impl AsRef<[u8]>) -> io::Result<()> {
    let mut how = OpenOptions::new();
    (how.write, how.create, how.truncate) = (true, true, true);
    let mut file = how.open(rt, path)?;
    io::Write::write_all(&mut file, bytes.as_ref())
}

/// Reads a whole file, which has to be UTF-8.
pub fn read_to_string<R: Files + Alloc>(rt: &R, path: &str) -> io::Result<String> {
    let mut file = open(rt, path)?;
    let (mut bytes, mut buf) = (Vec::new(Global), [0; 4096]);
    loop {
        match file.read(&mut buf)? {
            0 => break,
            count => bytes.extend_from_slice(&buf[..count])?,
        }
    }
    String::from_utf8(bytes).map_err(|_| io::ErrorKind::InvalidData.into())
}
