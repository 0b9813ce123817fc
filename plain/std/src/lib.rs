//! The modules of Rattle's `std` that differ from Rust's, over Rust's.
//!
//! In Rattle a call that allocates returns a `Result` and takes an allocator, and code that reads,
//! prints or opens files takes a handle to the runtime. The names here are those of `std`, and what
//! a call does is what `std` says, unless it says otherwise.
//!
//! What can go wrong in these modules is not proved: they are read and tested like any Rust.

#![deny(unsafe_op_in_unsafe_fn)]

#[cfg(not(any(target_pointer_width = "64", feature = "narrow")))]
compile_error!(
    "the proofs hold where a usize has 64 bits; on 32 bits the program is only tested, and the \
     feature plain_std/narrow allows it"
);
#[cfg(target_pointer_width = "16")]
compile_error!("16 bits are too few for a usize");

pub mod alloc;
pub mod boxed;
pub mod c;
pub mod env;
pub mod ext;
pub mod fs;
pub mod hash;
pub mod io;
mod macros;
pub mod os;
pub mod path;
#[cfg_attr(unix, path = "unix_paths.rs")]
#[cfg_attr(not(unix), path = "std_paths.rs")]
pub mod paths;
pub mod process;
pub mod rt;
pub mod string;
pub mod vec;
pub mod younger;
