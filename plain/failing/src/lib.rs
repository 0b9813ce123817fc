//! An allocator that fails at one call, for tests of what is done then.

#![deny(unsafe_op_in_unsafe_fn)]

use std::alloc::{GlobalAlloc, Layout, System};
use std::cell::Cell;
use std::ptr::null_mut;

thread_local! {
    /// How many calls of this thread succeed before one fails; `None` if all do.
    static LEFT: Cell<Option<usize>> = const { Cell::new(None) };
}

/// The system's allocator, but for the call that `each` makes fail.
pub struct Failing;

/// Returns whether this call fails. Those after it succeed.
fn fails() -> bool {
    LEFT.with(|left| {
        let before = left.get();
        left.set(before.and_then(|count| count.checked_sub(1)));
        before == Some(0)
    })
}

// SAFETY: each call is one of the system's allocator, or takes no memory and returns null.
unsafe impl GlobalAlloc for Failing {
    unsafe fn alloc(&self, layout: Layout) -> *mut u8 {
        if fails() {
            return null_mut();
        }
        // SAFETY: the condition is that of this call.
        unsafe { System.alloc(layout) }
    }

    unsafe fn dealloc(&self, at: *mut u8, layout: Layout) {
        // SAFETY: the condition is that of this call.
        unsafe { System.dealloc(at, layout) }
    }

    unsafe fn realloc(&self, at: *mut u8, layout: Layout, size: usize) -> *mut u8 {
        if fails() {
            return null_mut();
        }
        // SAFETY: the condition is that of this call.
        unsafe { System.realloc(at, layout, size) }
    }
}

/// Does the work again and again: the first allocation fails, then the second, and so on, until the
/// work is done with none that fails. Returns the outcomes in order; the last is that with memory
/// for all. `Failing` has to be the allocator of the process.
pub fn each<T>(mut work: impl FnMut() -> T) -> Vec<T> {
    let mut outcomes = Vec::new();
    loop {
        LEFT.with(|left| left.set(Some(outcomes.len())));
        let outcome = work();
        let none_failed = LEFT.with(|left| left.replace(None)).is_some();
        outcomes.push(outcome);
        if none_failed {
            return outcomes;
        }
    }
}
