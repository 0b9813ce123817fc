//! Allocation that returns a `Result`.

use std::collections::TryReserveError;
use std::error::Error;
use std::fmt;

/// The allocator of the process. A function that takes it may allocate.
#[derive(Clone, Copy, Debug, Default)]
pub struct Global;

/// Memory ran out.
#[derive(Clone, Copy, Debug, PartialEq, Eq)]
pub struct AllocError;

impl fmt::Display for AllocError {
    fn fmt(&self, f: &mut fmt::Formatter<'_>) -> fmt::Result {
        f.write_str("memory allocation failed")
    }
}

impl Error for AllocError {}

/// Memory ran out, and this value was not stored.
pub struct AllocFailed<T> {
    /// The value, given back.
    pub value: T,
}

impl<T> fmt::Debug for AllocFailed<T> {
    fn fmt(&self, f: &mut fmt::Formatter<'_>) -> fmt::Result {
        f.write_str("AllocFailed")
    }
}

impl<T> From<AllocFailed<T>> for AllocError {
    fn from(_: AllocFailed<T>) -> AllocError {
        AllocError
    }
}

impl From<TryReserveError> for AllocError {
    fn from(_: TryReserveError) -> AllocError {
        AllocError
    }
}

/// An allocator. There is only `Global`.
pub trait Allocator {}

impl Allocator for Global {}

/// A handle that gives an allocator.
pub trait Alloc {
    /// The allocator's type.
    type A: Allocator + Clone;

    /// Returns the allocator.
    fn alloc(&self) -> Self::A;
}

/// A handle that gives the allocator of the process.
pub trait AllocGlobal: Alloc<A = Global> {}

impl<R: Alloc<A = Global>> AllocGlobal for R {}

impl<R: Alloc> Alloc for &R {
    type A = R::A;

    fn alloc(&self) -> R::A {
        (**self).alloc()
    }
}
