//! The arguments of the program.

use crate::io;
use crate::rt::Env;
use crate::string::String;
use crate::vec::Vec;
#[cfg(unix)]
use std::ffi::CStr;
#[cfg(unix)]
use std::os::raw::{c_char, c_int};
#[cfg(unix)]
use std::sync::atomic::{AtomicPtr, AtomicUsize, Ordering};

/// The arguments, with the program's name first. One that is not UTF-8 is an error.
///
/// # Errors
///
/// `InvalidData` for an argument that is not UTF-8, and `OutOfMemory`.
pub fn args<R: Env>(rt: &R) -> io::Result<std::vec::IntoIter<String>> {
    Ok(rt.all_args()?.into_iter())
}

/// Changes the current folder of the process.
///
/// # Errors
///
/// Those of the system, if the folder cannot be entered.
pub fn set_current_dir<R: Env>(_rt: &R, path: &str) -> io::Result<()> {
    Ok(crate::paths::enter(path.as_ref())?)
}

/// The arguments as C's `main` got them.
#[cfg(unix)]
static WORDS: AtomicPtr<*const c_char> = AtomicPtr::new(std::ptr::null_mut());
#[cfg(unix)]
static COUNT: AtomicUsize = AtomicUsize::new(0);

/// Keeps the arguments that C's `main` got. Rust's start-up, which is not run, would.
///
/// # Safety
///
/// `words` points to `count` C strings that live as long as the process.
#[cfg(unix)]
pub unsafe fn keep(count: c_int, words: *const *const c_char) {
    WORDS.store(words as *mut _, Ordering::Release);
    COUNT.store(usize::try_from(count).unwrap_or(0), Ordering::Release);
}

/// Copies the arguments.
#[cfg(unix)]
pub(crate) fn all() -> io::Result<Vec<String>> {
    let mut all = Vec::new(crate::alloc::Global);
    let (words, count) = (WORDS.load(Ordering::Acquire), COUNT.load(Ordering::Acquire));
    for index in 0..count {
        // SAFETY: `keep` had `count` C strings.
        let word = unsafe { CStr::from_ptr(*words.add(index)) };
        let text = word.to_str().map_err(|_| io::ErrorKind::InvalidData)?;
        all.push(String::from_str(crate::alloc::Global, text)?)?;
    }
    Ok(all)
}

/// Copies the arguments.
#[cfg(not(unix))]
pub(crate) fn all() -> io::Result<Vec<String>> {
    let mut all = Vec::new(crate::alloc::Global);
    for word in std::env::args_os() {
        let text = word.into_string().map_err(|_| io::ErrorKind::InvalidData)?;
        all.push(String(text))?;
    }
    Ok(all)
}
