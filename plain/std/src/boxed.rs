//! `Box`, with its allocator.

use crate::alloc::{AllocFailed, Allocator, Global};
use std::alloc::Layout;
use std::ops::{Deref, DerefMut};

/// A value on the heap.
pub struct Box<T, A: Allocator = Global> {
    inner: std::boxed::Box<T>,
    alloc: A,
}

impl<T, A: Allocator> Box<T, A> {
    /// Moves a value to the heap. If memory runs out, the value is given back.
    pub fn new(alloc: A, value: T) -> Result<Box<T, A>, AllocFailed<T>> {
        let layout = Layout::new::<T>();
        if layout.size() == 0 {
            // No memory is taken.
            let inner = std::boxed::Box::new(value);
            return Ok(Box { inner, alloc });
        }
        // SAFETY: the layout has a size.
        let at = unsafe { std::alloc::alloc(layout) }.cast::<T>();
        if at.is_null() {
            return Err(AllocFailed { value });
        }
        // SAFETY: `at` is memory of the global allocator with the layout of `T`, which is what a
        // box owns. `write` puts a value there, so it is one of type `T`.
        let inner = unsafe {
            at.write(value);
            std::boxed::Box::from_raw(at)
        };
        Ok(Box { inner, alloc })
    }

    /// Moves the value out of the box.
    pub fn into_inner(boxed: Box<T, A>) -> T {
        *boxed.inner
    }

    /// Takes a box apart. The memory is lost unless `from_raw` makes the box again.
    pub fn into_raw_with_allocator(boxed: Box<T, A>) -> (*mut T, A) {
        (std::boxed::Box::into_raw(boxed.inner), boxed.alloc)
    }

    /// Makes a box again.
    ///
    /// # Safety
    ///
    /// The pointer is from `into_raw_with_allocator`, and used once.
    pub unsafe fn from_raw(alloc: A, at: *mut T) -> Box<T, A> {
        // SAFETY: by the condition above, the pointer was that of a box.
        let inner = unsafe { std::boxed::Box::from_raw(at) };
        Box { inner, alloc }
    }
}

impl<T, A: Allocator> Deref for Box<T, A> {
    type Target = T;

    fn deref(&self) -> &T {
        &self.inner
    }
}

impl<T, A: Allocator> DerefMut for Box<T, A> {
    fn deref_mut(&mut self) -> &mut T {
        &mut self.inner
    }
}

#[cfg(test)]
mod tests {
    use super::Box;
    use crate::alloc::Global;

    #[test]
    fn a_box_is_taken_apart_and_made_again() {
        let boxed = Box::new(Global, [1u8; 40]).unwrap();
        let (at, alloc) = Box::into_raw_with_allocator(boxed);
        // SAFETY: the pointer is that of the box above.
        let mut again = unsafe { Box::from_raw(alloc, at) };
        again[3] = 7;
        assert_eq!(Box::into_inner(again)[..5], [1, 1, 1, 7, 1]);
    }

    #[test]
    fn a_value_without_bytes_is_boxed() {
        let boxed = Box::new(Global, ()).unwrap();
        let (at, alloc) = Box::into_raw_with_allocator(boxed);
        // SAFETY: the pointer is that of the box above.
        drop(unsafe { Box::from_raw(alloc, at) });
    }
}
