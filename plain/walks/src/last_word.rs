use plain_std::hash::Hasher;

/// A hasher of the first two bytes of the last write, spread over 64 bits.
#[derive(Clone, Copy, Default)]
pub(crate) struct LastWord(u64);

impl Hasher for LastWord {
    fn finish(&self) -> u64 {
        self.0.wrapping_mul(11_400_714_819_323_198_485)
    }

    fn write(&mut self, bytes: &[u8]) {
        let low = bytes.first().copied().unwrap_or(0);
        let high = bytes.get(1).copied().unwrap_or(0);
        self.0 = u64::from(low) + 256 * u64::from(high);
    }
}
