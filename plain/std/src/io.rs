//! Reading and writing, with errors that are plain data.

use crate::alloc::{AllocError, AllocFailed};
use crate::rt::Print;
use std::fmt;
use crate::fs::TryLockError;
use std::io::{Read as _, Write as _};
#[cfg(unix)]
use std::mem::ManuallyDrop;
#[cfg(unix)]
use std::os::unix::io::FromRawFd;

pub use std::io::{ErrorKind, SeekFrom};

/// The end of a pipe that is read. There is none.
pub enum PipeReader {}

/// The end of a pipe that is written. There is none.
pub enum PipeWriter {}

/// An error of the system, by its number, or one of a kind.
#[derive(Clone, Copy, Debug, PartialEq, Eq)]
pub struct Error(Cause);

#[derive(Clone, Copy, Debug, PartialEq, Eq)]
enum Cause {
    Os(i32),
    Kind(ErrorKind),
}

/// The outcome of a call that reads or writes.
pub type Result<T> = std::result::Result<T, Error>;

impl Error {
    /// Returns the kind of the error.
    pub fn kind(&self) -> ErrorKind {
        self.as_std().kind()
    }

    /// Returns the system's number of the error, if it is one of the system.
    pub fn raw_os_error(&self) -> Option<i32> {
        match self.0 {
            Cause::Os(code) => Some(code),
            Cause::Kind(_) => None,
        }
    }

    fn as_std(&self) -> std::io::Error {
        match self.0 {
            Cause::Os(code) => std::io::Error::from_raw_os_error(code),
            Cause::Kind(kind) => std::io::Error::from(kind),
        }
    }
}

impl fmt::Display for Error {
    fn fmt(&self, f: &mut fmt::Formatter<'_>) -> fmt::Result {
        self.as_std().fmt(f)
    }
}

impl std::error::Error for Error {}

impl From<ErrorKind> for Error {
    fn from(kind: ErrorKind) -> Error {
        Error(Cause::Kind(kind))
    }
}

impl From<std::io::Error> for Error {
    fn from(error: std::io::Error) -> Error {
        match error.raw_os_error() {
            Some(code) => Error(Cause::Os(code)),
            None => Error(Cause::Kind(error.kind())),
        }
    }
}

impl From<Error> for std::io::Error {
    fn from(error: Error) -> std::io::Error {
        error.as_std()
    }
}

impl From<TryLockError> for Error {
    fn from(error: TryLockError) -> Error {
        match error {
            TryLockError::Error(error) => error.into(),
            TryLockError::WouldBlock => ErrorKind::WouldBlock.into(),
        }
    }
}

impl From<AllocError> for Error {
    fn from(_: AllocError) -> Error {
        ErrorKind::OutOfMemory.into()
    }
}

impl<T> From<AllocFailed<T>> for Error {
    fn from(_: AllocFailed<T>) -> Error {
        ErrorKind::OutOfMemory.into()
    }
}

/// What bytes are read from.
pub trait Read {
    /// Reads once, and returns how many bytes were read: none at the end.
    fn read(&mut self, buf: &mut [u8]) -> Result<usize>;
}

/// What bytes are written to.
pub trait Write {
    /// Writes once, and returns how many bytes were written.
    fn write(&mut self, bytes: &[u8]) -> Result<usize>;

    /// Writes what is held back.
    fn flush(&mut self) -> Result<()>;

    /// Writes all bytes, in as many writes as it takes.
    fn write_all(&mut self, mut bytes: &[u8]) -> Result<()> {
        while !bytes.is_empty() {
            match self.write(bytes) {
                Ok(0) => return Err(ErrorKind::WriteZero.into()),
                Ok(count) => bytes = &bytes[count..],
                Err(error) if error.kind() == ErrorKind::Interrupted => {}
                Err(error) => return Err(error),
            }
        }
        Ok(())
    }
}

/// What can be read from an offset on.
pub trait Seek {
    /// Moves to an offset, and returns it, counted from the start.
    fn seek(&mut self, to: SeekFrom) -> Result<u64>;
}

impl Read for &[u8] {
    fn read(&mut self, buf: &mut [u8]) -> Result<usize> {
        Ok(std::io::Read::read(self, buf)?)
    }
}

impl<T: Read> Read for &mut T {
    fn read(&mut self, buf: &mut [u8]) -> Result<usize> {
        (**self).read(buf)
    }
}

impl<T: Write> Write for &mut T {
    fn write(&mut self, bytes: &[u8]) -> Result<usize> {
        (**self).write(bytes)
    }

    fn flush(&mut self) -> Result<()> {
        (**self).flush()
    }
}

/// Standard input, with no buffer. Rust's own takes a closed one for an empty one.
pub struct Stdin(
    #[cfg(unix)] ManuallyDrop<std::fs::File>,
    #[cfg(not(unix))] std::io::Stdin,
);

impl Stdin {
    #[cfg(unix)]
    pub(crate) fn new() -> Stdin {
        // SAFETY: descriptor 0 is the process's, and is never closed, since nothing drops the file.
        Stdin(ManuallyDrop::new(unsafe { std::fs::File::from_raw_fd(0) }))
    }

    #[cfg(not(unix))]
    pub(crate) fn new() -> Stdin {
        Stdin(std::io::stdin())
    }
}

impl Read for Stdin {
    fn read(&mut self, buf: &mut [u8]) -> Result<usize> {
        Ok(self.0.read(buf)?)
    }
}

/// Writes once to standard output, with no buffer.
#[cfg(unix)]
pub(crate) fn write_stdout(bytes: &[u8]) -> Result<usize> {
    // SAFETY: descriptor 1 is the process's, and is never closed, since nothing drops the file.
    let mut out = ManuallyDrop::new(unsafe { std::fs::File::from_raw_fd(1) });
    Ok(out.write(bytes)?)
}

/// Writes once to standard output.
#[cfg(not(unix))]
pub(crate) fn write_stdout(bytes: &[u8]) -> Result<usize> {
    let mut out = std::io::stdout();
    let count = out.write(bytes)?;
    out.flush()?;
    Ok(count)
}

/// Standard output as what is written to.
pub struct Printer<'a, R: ?Sized>(&'a R);

/// Returns standard output, as a handle reaches it.
pub fn writer<R: Print + ?Sized>(rt: &R) -> Printer<'_, R> {
    Printer(rt)
}

impl<R: Print + ?Sized> Write for Printer<'_, R> {
    fn write(&mut self, bytes: &[u8]) -> Result<usize> {
        self.0.print_bytes(bytes)
    }

    fn flush(&mut self) -> Result<()> {
        Ok(())
    }
}

#[cfg(test)]
mod tests {
    use super::{Error, ErrorKind, Read, Result, Write};

    /// Takes two bytes a write, after one that is interrupted.
    struct Slow(std::vec::Vec<u8>, bool);

    impl Write for Slow {
        fn write(&mut self, bytes: &[u8]) -> Result<usize> {
            if !std::mem::replace(&mut self.1, true) {
                return Err(ErrorKind::Interrupted.into());
            }
            let count = bytes.len().min(2);
            self.0.extend_from_slice(&bytes[..count]);
            Ok(count)
        }

        fn flush(&mut self) -> Result<()> {
            Ok(())
        }
    }

    #[test]
    fn all_bytes_are_written_in_turn() {
        let mut out = Slow(std::vec::Vec::new(), false);
        out.write_all(b"abcde").unwrap();
        assert_eq!(out.0, b"abcde");
    }

    #[test]
    fn reading_takes_from_the_slice() {
        let (mut bytes, mut buf) = (&b"abc"[..], [0; 2]);
        assert_eq!(bytes.read(&mut buf), Ok(2));
        assert_eq!((bytes.read(&mut buf), bytes.read(&mut buf)), (Ok(1), Ok(0)));
    }

    #[test]
    fn an_error_of_the_system_keeps_its_number() {
        let error = Error::from(std::io::Error::from_raw_os_error(2));
        assert_eq!(
            (error.raw_os_error(), error.kind()),
            (Some(2), ErrorKind::NotFound)
        );
        let error = Error::from(ErrorKind::WriteZero);
        assert_eq!(
            (error.raw_os_error(), error.kind()),
            (None, ErrorKind::WriteZero)
        );
    }
}
