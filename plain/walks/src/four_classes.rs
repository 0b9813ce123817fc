use plain_std::hash::Hasher;

/// A hasher with only four answers, by the first byte of the last write, so that most keys collide.
#[derive(Clone, Copy, Default)]
pub(crate) struct FourClasses(u64);

impl Hasher for FourClasses {
    fn finish(&self) -> u64 {
        self.0
    }

    fn write(&mut self, bytes: &[u8]) {
        self.0 = match bytes {
            [first, ..] => u64::from(*first) % 4,
            [] => self.0 % 4,
        };
    }
}
