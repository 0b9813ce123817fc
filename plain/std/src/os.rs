//! The names of Unix. Where there is no Unix, the types have no values.

pub mod fd {
    //! File descriptors.

    #[cfg(unix)]
    pub use std::os::unix::io::BorrowedFd;

    /// A file descriptor, of which there are none here.
    #[cfg(not(unix))]
    pub struct BorrowedFd<'a>(std::convert::Infallible, std::marker::PhantomData<&'a ()>);
}

pub mod unix {
    //! What only Unix has.

    pub mod fs {
        //! Modes and symbolic links.

        pub use crate::fs::{OpenOptionsExt, symlink};
    }

    pub mod net {
        //! Addresses of sockets that are files.

        #[cfg(unix)]
        pub use std::os::unix::net::SocketAddr;

        /// An address, of which there are none here.
        #[cfg(not(unix))]
        pub struct SocketAddr(std::convert::Infallible);
    }
}
