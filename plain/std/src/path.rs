//! Paths as values. No program here makes one.

use std::marker::PhantomData;

/// A path that a call would allocate.
pub struct PathBuf<B>(PhantomData<B>);
