//! Slices that C passes, as a pointer and a length.

/// The items that C passes. With the length 0 the pointer may be null.
///
/// # Safety
///
/// As of `std::slice::from_raw_parts`, unless the length is 0.
pub unsafe fn slice<'a, T>(at: *const T, len: usize) -> &'a [T] {
    if len == 0 {
        return &[];
    }
    // SAFETY: the caller's.
    unsafe { std::slice::from_raw_parts(at, len) }
}

/// The items that C passes to be written. With the length 0 the pointer may be null.
///
/// # Safety
///
/// As of `std::slice::from_raw_parts_mut`, unless the length is 0.
pub unsafe fn slice_mut<'a, T>(at: *mut T, len: usize) -> &'a mut [T] {
    if len == 0 {
        return &mut [];
    }
    // SAFETY: the caller's.
    unsafe { std::slice::from_raw_parts_mut(at, len) }
}

#[cfg(test)]
mod tests {
    use super::{slice, slice_mut};

    #[test]
    fn a_null_pointer_is_an_empty_slice() {
        // SAFETY: the length is 0.
        unsafe {
            assert!(slice::<u64>(std::ptr::null(), 0).is_empty());
            assert!(slice_mut::<u64>(std::ptr::null_mut(), 0).is_empty());
        }
    }
}
