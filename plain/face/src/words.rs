//! Random words of a generator.

use plain_rand_core::Rng;
use rand_core::RngCore;

/// How many words are drawn at once.
const PIECE: usize = 64;

/// Fills a list with random words.
pub(crate) fn fill<R: RngCore + ?Sized>(words: &mut [u64], rng: &mut R) {
    let mut bytes = [0; 8 * PIECE];
    for piece in words.chunks_mut(PIECE) {
        let bytes = &mut bytes[..8 * piece.len()];
        rng.fill_bytes(bytes);
        for (word, bytes) in piece.iter_mut().zip(bytes.chunks_exact(8)) {
            let bytes: &[u8; 8] = bytes.try_into().unwrap_or(&[0; 8]);
            *word = u64::from_le_bytes(*bytes);
        }
    }
}

/// A generator as the calls below take it.
pub(crate) struct Words<'a, R: ?Sized>(pub(crate) &'a mut R);

impl<R: RngCore + ?Sized> Rng for Words<'_, R> {
    fn next_u32(&mut self) -> u32 {
        self.0.next_u32()
    }

    fn next_u64(&mut self) -> u64 {
        self.0.next_u64()
    }
}
