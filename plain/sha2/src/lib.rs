//! SHA-256 by the crate `sha2`, with arrays as results. It uses the processor's instructions for
//! SHA-256 where there are any.

#![deny(unsafe_op_in_unsafe_fn)]

use sha2::Digest as _;

/// A hash under way.
#[derive(Clone)]
pub struct Sha256(sha2::Sha256);

/// The calls of a hash.
pub trait Digest: Sized {
    /// Begins.
    fn new() -> Self;

    /// Hashes more bytes.
    fn update<T: AsRef<[u8]>>(&mut self, bytes: T);

    /// Returns the hash of all bytes.
    fn finalize(self) -> [u8; 32];

    /// Returns the hash of these bytes.
    fn digest<T: AsRef<[u8]>>(bytes: T) -> [u8; 32] {
        Self::new().chain_update(bytes).finalize()
    }

    /// Hashes more bytes, and hands the hash on.
    fn chain_update<T: AsRef<[u8]>>(mut self, bytes: T) -> Self {
        self.update(bytes);
        self
    }
}

impl Digest for Sha256 {
    #[inline]
    fn new() -> Sha256 {
        Sha256(sha2::Sha256::new())
    }

    #[inline]
    fn update<T: AsRef<[u8]>>(&mut self, bytes: T) {
        self.0.update(bytes.as_ref());
    }

    #[inline]
    fn finalize(self) -> [u8; 32] {
        self.0.finalize().into()
    }
}

#[cfg(test)]
mod tests {
    use super::{Digest, Sha256};

    /// The first example of FIPS 180-4.
    #[test]
    fn the_hash_of_abc() {
        let hash = Sha256::digest("abc");
        assert_eq!(hash[..4], [0xba, 0x78, 0x16, 0xbf]);
        assert_eq!(
            Sha256::new()
                .chain_update("a")
                .chain_update("bc")
                .finalize(),
            hash
        );
    }
}
