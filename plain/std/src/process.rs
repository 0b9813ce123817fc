//! How the program ends.

use crate::rt::{Eprint, HostRuntime};

/// The exit code of the program.
#[derive(Clone, Copy, Debug, PartialEq, Eq)]
pub struct ExitCode(u8);

impl ExitCode {
    /// All is well.
    pub const SUCCESS: ExitCode = ExitCode(0);
    /// Something is not.
    pub const FAILURE: ExitCode = ExitCode(1);
}

impl From<u8> for ExitCode {
    fn from(code: u8) -> ExitCode {
        ExitCode(code)
    }
}

/// What a program may return.
pub trait Termination {
    /// Says how the program ended, on standard error if need be, and returns the exit code.
    fn report<R: Eprint>(self, errors: &R) -> ExitCode;
}

impl Termination for ExitCode {
    fn report<R: Eprint>(self, _errors: &R) -> ExitCode {
        self
    }
}

impl Termination for () {
    fn report<R: Eprint>(self, _errors: &R) -> ExitCode {
        ExitCode::SUCCESS
    }
}

/// Calls a program over the runtime, and returns its exit code. A write to a pipe that nobody reads
/// is an error of the write, and does not end the process.
pub fn run<T: Termination>(program: impl FnOnce(HostRuntime) -> T) -> i32 {
    ignore_broken_pipes();
    program(HostRuntime).report(&HostRuntime).0.into()
}

#[cfg(unix)]
fn ignore_broken_pipes() {
    // SAFETY: no other thread runs yet.
    unsafe { libc::signal(libc::SIGPIPE, libc::SIG_IGN) };
}

#[cfg(not(unix))]
fn ignore_broken_pipes() {}
