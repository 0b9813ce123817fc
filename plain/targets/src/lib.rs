//! The library for C and what else the targets of fuzz/ call: files that the library does not read.

use plain_std::alloc::Global;

// Its functions for C are part of this library.
extern crate addrman_c;

/// The bytes that an input has.
///
/// # Safety
///
/// `bytes` points to `length` bytes, or `length` is 0.
unsafe fn input<'a>(bytes: *const u8, length: usize) -> &'a [u8] {
    if length == 0 {
        return &[];
    }
    unsafe { std::slice::from_raw_parts(bytes, length) }
}

/// Reads an anchors.dat of the main chain. What is read is written, read and written again. Returns whether it is read.
///
/// The first bytes may be others: each entry names a version of Bitcoin Core, and those of unknown networks are skipped.
///
/// # Safety
///
/// `bytes` points to `length` bytes, or `length` is 0.
#[no_mangle]
pub unsafe extern "C" fn target_anchors(bytes: *const u8, length: usize) -> bool {
    reads_anchors(unsafe { input(bytes, length) }).is_some()
}

/// The same, or `None` where the bytes are refused.
fn reads_anchors(bytes: &[u8]) -> Option<()> {
    let magic = [0xf9, 0xbe, 0xb4, 0xd9];
    let found = anchors::read_file(Global, bytes, magic).ok()?;
    let written = anchors::write_file(Global, found.items(), magic).expect("there is memory");
    let again = anchors::read_file(Global, written.items(), magic);
    let again = again.expect("what is written is read");
    let second = anchors::write_file(Global, again.items(), magic).expect("there is memory");
    assert!(second.items() == written.items());
    Some(())
}

/// Reads a listing of both tables, as `getrawaddrman` prints it. Returns whether it is read.
///
/// # Safety
///
/// `bytes` points to `length` bytes, or `length` is 0.
#[no_mangle]
pub unsafe extern "C" fn target_listing(bytes: *const u8, length: usize) -> bool {
    raw_read::read_raw(Global, unsafe { input(bytes, length) }).is_ok()
}
