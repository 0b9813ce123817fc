//! Hashers whose results are the same in each run, and one that is seeded.

use crate::io;

pub use std::hash::{BuildHasher, BuildHasherDefault, Hash, Hasher};

/// A fast hasher with a fixed seed. Where keys come from outside, `RandomState` is used.
#[derive(Clone, Default)]
pub struct FoldHasher(u64);

impl Hasher for FoldHasher {
    fn write(&mut self, bytes: &[u8]) {
        for chunk in bytes.chunks(8) {
            let mut word = [0; 8];
            word[..chunk.len()].copy_from_slice(chunk);
            self.write_u64(u64::from_le_bytes(word));
        }
    }

    fn write_u8(&mut self, value: u8) {
        self.write_u64(value.into());
    }

    fn write_u16(&mut self, value: u16) {
        self.write_u64(value.into());
    }

    fn write_u32(&mut self, value: u32) {
        self.write_u64(value.into());
    }

    #[inline]
    fn write_u64(&mut self, value: u64) {
        let mixed = u128::from(self.0 ^ value ^ 0x243f_6a88_85a3_08d3) * 0x5851_f42d_4c95_7f2d;
        self.0 = (mixed as u64) ^ ((mixed >> 64) as u64);
    }

    fn write_usize(&mut self, value: usize) {
        self.write_u64(value as u64);
    }

    fn finish(&self) -> u64 {
        self.0.wrapping_mul(0x9e37_79b9_7f4a_7c15)
    }
}

/// SipHash-1-3 (Aumasson and Bernstein, "SipHash: a fast short-input PRF", 2012), as Rust's
/// `DefaultHasher`, but plain data whose integers are hashed in little-endian order everywhere.
#[derive(Clone, Copy)]
pub struct DefaultHasher {
    state: [u64; 4],
    /// The bytes after the last whole word, lowest first.
    tail: u64,
    /// How many bytes were hashed.
    len: u64,
}

impl DefaultHasher {
    /// Returns the hasher with the keys 0.
    #[inline]
    pub fn new() -> DefaultHasher {
        DefaultHasher::with_keys(0, 0)
    }

    #[inline]
    fn with_keys(first: u64, second: u64) -> DefaultHasher {
        DefaultHasher {
            state: [
                first ^ 0x736f_6d65_7073_6575,
                second ^ 0x646f_7261_6e64_6f6d,
                first ^ 0x6c79_6765_6e65_7261,
                second ^ 0x7465_6462_7974_6573,
            ],
            tail: 0,
            len: 0,
        }
    }

    #[inline]
    fn round(&mut self) {
        let [mut a, mut b, mut c, mut d] = self.state;
        a = a.wrapping_add(b);
        b = b.rotate_left(13) ^ a;
        a = a.rotate_left(32);
        c = c.wrapping_add(d);
        d = d.rotate_left(16) ^ c;
        a = a.wrapping_add(d);
        d = d.rotate_left(21) ^ a;
        c = c.wrapping_add(b);
        b = b.rotate_left(17) ^ c;
        c = c.rotate_left(32);
        self.state = [a, b, c, d];
    }

    #[inline]
    fn word(&mut self, word: u64) {
        self.state[3] ^= word;
        self.round();
        self.state[0] ^= word;
    }

    /// Hashes the lowest `count` bytes of a value, of which there are 1 to 8. The others are 0.
    #[inline]
    fn part(&mut self, value: u64, count: u64) {
        let before = self.len % 8;
        self.len = self.len.wrapping_add(count);
        self.tail |= value << (8 * before);
        if before + count >= 8 {
            let word = self.tail;
            self.word(word);
            self.tail = if before == 0 {
                0
            } else {
                value >> (8 * (8 - before))
            };
        }
    }
}

impl Default for DefaultHasher {
    fn default() -> DefaultHasher {
        DefaultHasher::new()
    }
}

impl Hasher for DefaultHasher {
    #[inline]
    fn write(&mut self, bytes: &[u8]) {
        let words = bytes.chunks_exact(8);
        let rest = words.remainder();
        for word in words {
            let mut eight = [0; 8];
            eight.copy_from_slice(word);
            self.part(u64::from_le_bytes(eight), 8);
        }
        for byte in rest {
            self.part(u64::from(*byte), 1);
        }
    }

    #[inline]
    fn write_u8(&mut self, value: u8) {
        self.part(value.into(), 1);
    }

    #[inline]
    fn write_u16(&mut self, value: u16) {
        self.part(value.into(), 2);
    }

    #[inline]
    fn write_u32(&mut self, value: u32) {
        self.part(value.into(), 4);
    }

    #[inline]
    fn write_u64(&mut self, value: u64) {
        self.part(value, 8);
    }

    #[inline]
    fn write_usize(&mut self, value: usize) {
        self.part(value as u64, 8);
    }

    #[inline]
    fn finish(&self) -> u64 {
        let mut end = *self;
        end.word(self.tail | (self.len << 56));
        end.state[2] ^= 0xff;
        end.round();
        end.round();
        end.round();
        end.state[0] ^ end.state[1] ^ end.state[2] ^ end.state[3]
    }
}

/// Makes hashers with two random keys, so that nobody can choose keys of one hash.
#[derive(Clone, Copy)]
pub struct RandomState(u64, u64);

impl RandomState {
    /// Takes the keys from the system, by way of Rust's `RandomState`.
    pub fn new<R>(_rt: &R) -> io::Result<RandomState> {
        Ok(RandomState::of_process())
    }

    /// Does the same, without a handle.
    pub fn of_process() -> RandomState {
        let random = std::collections::hash_map::RandomState::new();
        let one = |number: i32| {
            let mut hasher = random.build_hasher();
            std::hash::Hash::hash(&number, &mut hasher);
            hasher.finish()
        };
        RandomState(one(1), one(2))
    }
}

impl BuildHasher for RandomState {
    type Hasher = DefaultHasher;

    #[inline]
    fn build_hasher(&self) -> DefaultHasher {
        DefaultHasher::with_keys(self.0, self.1)
    }
}

#[cfg(test)]
mod tests {
    use super::{DefaultHasher, Hasher};

    #[test]
    fn hashes_are_those_of_std() {
        let bytes: std::vec::Vec<u8> = (0..40).collect();
        for cut in 0..bytes.len() {
            for middle in 0..=cut {
                let (mut own, mut std) = (DefaultHasher::new(), std::collections::hash_map::DefaultHasher::new());
                own.write(&bytes[..middle]);
                own.write(&bytes[middle..cut]);
                own.write_u64(7);
                std.write(&bytes[..cut]);
                std.write(&7u64.to_le_bytes());
                assert_eq!(own.finish(), std.finish());
            }
        }
    }
}
