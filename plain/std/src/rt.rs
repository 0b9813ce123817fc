//! The runtime that `main` hands down: who has no handle, neither reads nor prints.

use crate::alloc::{Alloc, Global};
use crate::fs::{self, Metadata, OpenFile, OpenOptions, Permissions};
use crate::io::{self, PipeReader, PipeWriter};
use crate::os::fd::BorrowedFd;
use crate::os::unix::net::SocketAddr;
use crate::path::PathBuf;
use crate::string::String;
use crate::vec::Vec;
use crate::{alloc::Allocator, env, paths};
use std::fmt::{self, Display};

/// The runtime of the process.
#[derive(Clone, Copy, Debug)]
pub struct HostRuntime;

/// What Rattle's prelude has by its traits, which are not imported where a handle has this type.
impl HostRuntime {
    /// Returns the allocator.
    pub fn alloc(&self) -> Global {
        Global
    }

    /// Returns what reads standard input, without a buffer.
    pub fn reader(&self) -> io::Stdin {
        io::Stdin::new()
    }

    /// Writes what is displayed to standard output, as one text.
    pub fn print<D: Display>(&self, text: D) -> io::Result<()> {
        Print::print(self, text)
    }

    /// Writes what is displayed to standard error, as one text.
    pub fn eprint<D: Display>(&self, text: D) -> io::Result<()> {
        Eprint::eprint(self, text)
    }
}

impl Alloc for HostRuntime {
    type A = Global;

    fn alloc(&self) -> Global {
        Global
    }
}

/// A handle that ends the process.
pub trait Abort {
    /// Ends the process with an exit code.
    fn exit(&self, code: i32) -> ! {
        std::process::exit(code)
    }
}

impl Abort for HostRuntime {}

/// A handle that reads standard input.
pub trait Input {
    /// What reads it.
    type Reader: io::Read;

    /// Returns what reads it, without a buffer.
    fn reader(&self) -> Self::Reader;
}

impl Input for HostRuntime {
    type Reader = io::Stdin;

    fn reader(&self) -> io::Stdin {
        io::Stdin::new()
    }
}

/// A handle that writes to standard output.
pub trait Print {
    /// Writes bytes once, and returns how many were written.
    fn print_bytes(&self, bytes: &[u8]) -> io::Result<usize>;

    /// Writes what is displayed, as one text.
    fn print<D: Display>(&self, text: D) -> io::Result<()> {
        let text = whole(format_args!("{text}"))?;
        io::Write::write_all(&mut io::writer(self), text.as_bytes())
    }

    /// Writes what is displayed, and the end of the line.
    fn println<D: Display>(&self, text: D) -> io::Result<()> {
        self.print(format_args!("{text}\n"))
    }
}

impl Print for HostRuntime {
    fn print_bytes(&self, bytes: &[u8]) -> io::Result<usize> {
        io::write_stdout(bytes)
    }
}

impl<R: Print> Print for &R {
    fn print_bytes(&self, bytes: &[u8]) -> io::Result<usize> {
        (**self).print_bytes(bytes)
    }
}

/// A handle that writes to standard error.
pub trait Eprint {
    /// Writes what is displayed, as one text.
    fn eprint<D: Display>(&self, text: D) -> io::Result<()>;

    /// Writes what is displayed, and the end of the line.
    fn eprintln<D: Display>(&self, text: D) -> io::Result<()> {
        self.eprint(format_args!("{text}\n"))
    }
}

impl Eprint for HostRuntime {
    fn eprint<D: Display>(&self, text: D) -> io::Result<()> {
        let text = whole(format_args!("{text}"))?;
        Ok(std::io::Write::write_all(
            &mut std::io::stderr(),
            text.as_bytes(),
        )?)
    }
}

impl<R: Eprint> Eprint for &R {
    fn eprint<D: Display>(&self, text: D) -> io::Result<()> {
        (**self).eprint(text)
    }
}

/// Makes a text of a format, so that one call writes it.
fn whole(format: fmt::Arguments<'_>) -> io::Result<String> {
    Ok(crate::string::format(Global, format)?)
}

/// A handle that knows the arguments.
pub trait Env {
    /// Copies the arguments. One that is not UTF-8 is an error.
    fn all_args(&self) -> io::Result<Vec<String>>;
}

impl Env for HostRuntime {
    fn all_args(&self) -> io::Result<Vec<String>> {
        env::all()
    }
}

impl<R: Env> Env for &R {
    fn all_args(&self) -> io::Result<Vec<String>> {
        (**self).all_args()
    }
}

/// A handle that opens files and changes folders. The calls that no program here makes answer
/// `Unsupported`, unless they are written.
pub trait Files {
    /// An open file.
    type File: io::Read + io::Write + io::Seek + OpenFile;
    /// An open folder.
    type Dir: io::Read;

    /// Opens a file.
    fn open_file(&self, how: &OpenOptions, path: &str) -> io::Result<Self::File>;

    /// Opens a folder.
    fn open_dir(&self, _path: &str) -> io::Result<Self::Dir> {
        unsupported()
    }

    /// Returns what is known of a file, behind links.
    fn metadata(&self, path: &str) -> io::Result<Metadata>;

    /// Returns what is known of a file, of a link itself.
    fn symlink_metadata(&self, _path: &str) -> io::Result<Metadata> {
        unsupported()
    }

    /// Copies a file.
    fn copy(&self, _from: &str, _to: &str) -> io::Result<u64> {
        unsupported()
    }

    /// Renames a file.
    fn rename(&self, from: &str, to: &str) -> io::Result<()>;

    /// Removes a file.
    fn remove_file(&self, path: &str) -> io::Result<()>;

    /// Makes a folder.
    fn create_dir(&self, _path: &str) -> io::Result<()> {
        unsupported()
    }

    /// Removes an empty folder.
    fn remove_dir(&self, _path: &str) -> io::Result<()> {
        unsupported()
    }

    /// Removes a folder with all that is in it.
    fn remove_dir_all<B: Allocator>(&self, _alloc: B, _path: &str) -> io::Result<()> {
        unsupported()
    }

    /// Returns the path without links.
    fn canonicalize<B: Allocator>(&self, _alloc: B, _path: &str) -> io::Result<PathBuf<B>> {
        unsupported()
    }

    /// Returns where a link leads.
    fn read_link<B: Allocator>(&self, _alloc: B, _path: &str) -> io::Result<PathBuf<B>> {
        unsupported()
    }

    /// Gives a file one more name.
    fn hard_link(&self, _original: &str, _link: &str) -> io::Result<()> {
        unsupported()
    }

    /// Changes who may do what with a file.
    fn set_permissions(&self, _path: &str, _permissions: Permissions) -> io::Result<()> {
        unsupported()
    }

    /// Makes a symbolic link.
    fn symlink(&self, _original: &str, _link: &str) -> io::Result<()> {
        unsupported()
    }

    /// Makes a pipe.
    fn pipe(&self) -> io::Result<(PipeReader, PipeWriter)> {
        unsupported()
    }

    /// Changes the owner of a file.
    fn chown(&self, _path: &str, _user: Option<u32>, _group: Option<u32>) -> io::Result<()> {
        unsupported()
    }

    /// Changes the owner of a link itself.
    fn lchown(&self, _path: &str, _user: Option<u32>, _group: Option<u32>) -> io::Result<()> {
        unsupported()
    }

    /// Makes a folder with these permission bits.
    fn create_dir_with_mode(&self, _path: &str, _mode: u32) -> io::Result<()> {
        unsupported()
    }

    /// Binds a socket to a path.
    fn bind_unix(&self, _socket: BorrowedFd<'_>, _address: &SocketAddr) -> io::Result<()> {
        unsupported()
    }
}

/// Returns the error of a call that is not there.
fn unsupported<T>() -> io::Result<T> {
    Err(io::Error::from(io::ErrorKind::Unsupported))
}

impl Files for HostRuntime {
    type File = fs::File;
    type Dir = io::Stdin;

    fn open_file(&self, how: &OpenOptions, path: &str) -> io::Result<fs::File> {
        Ok(paths::open(how, path.as_ref())?.into())
    }

    fn metadata(&self, path: &str) -> io::Result<Metadata> {
        Ok(paths::metadata(path.as_ref())?)
    }

    fn symlink_metadata(&self, path: &str) -> io::Result<Metadata> {
        Ok(std::fs::symlink_metadata(path)?.into())
    }

    fn copy(&self, from: &str, to: &str) -> io::Result<u64> {
        Ok(std::fs::copy(from, to)?)
    }

    fn rename(&self, from: &str, to: &str) -> io::Result<()> {
        Ok(paths::rename(from.as_ref(), to.as_ref())?)
    }

    fn remove_file(&self, path: &str) -> io::Result<()> {
        Ok(paths::remove_file(path.as_ref())?)
    }

    fn create_dir(&self, path: &str) -> io::Result<()> {
        Ok(paths::create_dir(path.as_ref())?)
    }

    fn remove_dir(&self, path: &str) -> io::Result<()> {
        Ok(std::fs::remove_dir(path)?)
    }

    fn remove_dir_all<B: Allocator>(&self, _alloc: B, path: &str) -> io::Result<()> {
        Ok(std::fs::remove_dir_all(path)?)
    }

    fn hard_link(&self, original: &str, link: &str) -> io::Result<()> {
        Ok(std::fs::hard_link(original, link)?)
    }

    #[cfg(unix)]
    fn symlink(&self, original: &str, link: &str) -> io::Result<()> {
        Ok(std::os::unix::fs::symlink(original, link)?)
    }
}
