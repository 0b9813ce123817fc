//! The program for a web page: arguments, log and files go in, the exit code, the output, the lines
//! for standard error and the files come out, all of it in memory.
//!
//! The module has no import, so it can reach neither a file nor the network. A caller takes room
//! with `room`, writes bytes there, and gives them away by `add_argument`, `set_log` or `set_file`.
//! `run` uses up the arguments and the log, and changes the files as the program would.
//!
//! What a page draws comes without a text between: `open_peers` and `open_raw` read a file by the
//! same crates, and leave it as columns. The calls of one instance are made one after another.

mod columns;
mod folder;
mod groups;
mod keyed;
mod open;
mod state;
mod texts;

use crate::keyed::Keyed;
use crate::state::state;
use placing::SumRule;

/// Takes room for `len` bytes. Returns 0 if there is no memory.
#[unsafe(no_mangle)]
pub extern "C" fn room(len: usize) -> *mut u8 {
    let mut bytes: Vec<u8> = Vec::new();
    if bytes.try_reserve_exact(len.max(1)).is_err() {
        return std::ptr::null_mut();
    }
    bytes.resize(len.max(1), 0);
    Box::into_raw(bytes.into_boxed_slice()).cast()
}

/// Takes back the room of `room(len)` with its first `len` bytes.
///
/// # Safety
/// `at` is from `room(len)`, and was not given away before.
unsafe fn taken(at: *mut u8, len: usize) -> Vec<u8> {
    let slice = std::ptr::slice_from_raw_parts_mut(at, len.max(1));
    let mut bytes = unsafe { Box::from_raw(slice) }.into_vec();
    bytes.truncate(len);
    bytes
}

/// Sets the two words of the key of the hash tables. They should be random.
#[unsafe(no_mangle)]
pub extern "C" fn set_hash_key(first: u64, second: u64) {
    state().key = Keyed { first, second };
}

/// Adds an argument. Returns whether it is UTF-8.
///
/// # Safety
/// As of `taken`.
#[unsafe(no_mangle)]
pub unsafe extern "C" fn add_argument(at: *mut u8, len: usize) -> bool {
    match String::from_utf8(unsafe { taken(at, len) }) {
        Ok(text) => {
            state().words.push(text);
            true
        }
        Err(_) => false,
    }
}

/// Sets the log of the next run.
///
/// # Safety
/// As of `taken`.
#[unsafe(no_mangle)]
pub unsafe extern "C" fn set_log(at: *mut u8, len: usize) {
    state().log = unsafe { taken(at, len) };
}

/// Puts a file into the folder. `name` is its position in `NAMES` of host_io: 0 peers.dat,
/// 2 asmap.dat, 4 asmap.old, 5 prefixes.txt, 6 banlist.json. Returns whether there is such a name.
///
/// # Safety
/// As of `taken`.
#[unsafe(no_mangle)]
pub unsafe extern "C" fn set_file(name: u32, at: *mut u8, len: usize) -> bool {
    let bytes = unsafe { taken(at, len) };
    state().files.put(name as usize, bytes)
}

/// Removes all files.
#[unsafe(no_mangle)]
pub extern "C" fn clear_files() {
    state().files.clear();
}

/// Runs the program, and returns its exit code.
#[unsafe(no_mangle)]
pub extern "C" fn run() -> u32 {
    state().run()
}

/// Returns where the output of the last run is.
#[unsafe(no_mangle)]
pub extern "C" fn output_at() -> *const u8 {
    state().output.as_ptr()
}

/// Returns how many bytes the output of the last run has.
#[unsafe(no_mangle)]
pub extern "C" fn output_len() -> usize {
    state().output.len()
}

/// Returns where the lines are that the last run would print on standard error.
#[unsafe(no_mangle)]
pub extern "C" fn errors_at() -> *const u8 {
    state().errors.as_ptr()
}

/// Returns how many bytes these lines have.
#[unsafe(no_mangle)]
pub extern "C" fn errors_len() -> usize {
    state().errors.len()
}

/// Returns whether a file is there.
#[unsafe(no_mangle)]
pub extern "C" fn has_file(name: u32) -> bool {
    state().files.get(name as usize).is_some()
}

/// Returns where the bytes of a file are.
#[unsafe(no_mangle)]
pub extern "C" fn file_at(name: u32) -> *const u8 {
    state().files.get(name as usize).unwrap_or(&[]).as_ptr()
}

/// Returns how many bytes a file has, 0 if it is absent.
#[unsafe(no_mangle)]
pub extern "C" fn file_len(name: u32) -> usize {
    state().files.get(name as usize).unwrap_or(&[]).len()
}

/// Drops the output, so that its memory is free for the next run.
#[unsafe(no_mangle)]
pub extern "C" fn clear_output() {
    state().output = Vec::new();
}

/// Opens `peers.dat` under `asmap.dat`, if that is there, as columns; `is_core` is the option
/// `--core`. Returns whether that was possible. If not, `run` of a command that reads both says
/// why.
#[unsafe(no_mangle)]
pub extern "C" fn open_peers(is_core: bool) -> bool {
    let rule = if is_core {
        SumRule::Bits
    } else {
        SumRule::Bytes
    };
    state().open_peers(rule)
}

/// Opens the log, which is what `getrawaddrman` printed, as columns, with groups by `asmap.dat`.
/// Returns whether that was possible. If not, the lines for standard error say why, unless they are
/// empty: then `asmap.dat` is refused, and `run` says why.
#[unsafe(no_mangle)]
pub extern "C" fn open_raw() -> bool {
    state().open_raw()
}

/// Writes the texts of the opened file's addresses. Returns whether there was memory.
#[unsafe(no_mangle)]
pub extern "C" fn write_texts() -> bool {
    state().columns.write_texts().is_ok()
}

/// Returns where the bytes of a column of the opened file are.
#[unsafe(no_mangle)]
pub extern "C" fn column_at(column: u32) -> *const u8 {
    state().columns.get(column as usize).as_ptr()
}

/// Returns how many bytes a column of the opened file has.
#[unsafe(no_mangle)]
pub extern "C" fn column_len(column: u32) -> usize {
    state().columns.get(column as usize).len()
}
