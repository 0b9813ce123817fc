//! The macros that take an allocator or a handle.

/// Makes a `Vec` of items, or of one item many times.
#[macro_export]
macro_rules! vec {
    (in $alloc:expr; $item:expr; $count:expr) => {
        $crate::vec::Vec::from_elem($alloc, $item, $count)
    };
    (in $alloc:expr; $($item:expr),* $(,)?) => {
        $crate::vec::Vec::from_array($alloc, [$($item),*])
    };
}

/// Makes a `String` of a format.
#[macro_export]
macro_rules! format {
    (in $alloc:expr; $($format:tt)*) => {
        $crate::string::format($alloc, ::std::format_args!($($format)*))
    };
}

/// Writes a line to standard output.
#[macro_export]
macro_rules! println {
    ($rt:expr;) => {
        $crate::rt::Print::print(&$rt, "\n")
    };
    ($rt:expr; $($format:tt)*) => {
        $crate::rt::Print::println(&$rt, ::std::format_args!($($format)*))
    };
}

/// Writes text to standard output.
#[macro_export]
macro_rules! print {
    ($rt:expr; $($format:tt)*) => {
        $crate::rt::Print::print(&$rt, ::std::format_args!($($format)*))
    };
}

/// Writes a line to standard error.
#[macro_export]
macro_rules! eprintln {
    ($rt:expr; $($format:tt)*) => {
        $crate::rt::Eprint::eprintln(&$rt, ::std::format_args!($($format)*))
    };
}

/// Writes text to standard error.
#[macro_export]
macro_rules! eprint {
    ($rt:expr; $($format:tt)*) => {
        $crate::rt::Eprint::eprint(&$rt, ::std::format_args!($($format)*))
    };
}

/// Starts the program: calls a function over the runtime, and ends with what it reports.
///
/// Where there are file descriptors, this is the `main` of C, since that of Rust opens the null
/// device for each standard stream that is closed, and hides that it was.
#[macro_export]
macro_rules! entry {
    ($program:path) => {
        #[cfg(unix)]
        #[no_mangle]
        extern "C" fn main(
            count: ::std::os::raw::c_int,
            words: *const *const ::std::os::raw::c_char,
        ) -> ::std::os::raw::c_int {
            // SAFETY: these are the arguments that C gives its `main`.
            unsafe { $crate::env::keep(count, words) };
            $crate::process::run($program)
        }

        #[cfg(not(unix))]
        fn main() {
            ::std::process::exit($crate::process::run($program))
        }
    };
}
