//! The traits of random generators, as the crate `rand_core` 0.10 has them.

#![deny(unsafe_op_in_unsafe_fn)]

/// A generator.
pub trait Rng {
    /// Returns the next 32 bits.
    fn next_u32(&mut self) -> u32;

    /// Returns the next 64 bits.
    fn next_u64(&mut self) -> u64;
}

/// A generator that begins with a seed.
pub trait SeedableRng: Sized {
    /// Begins with a seed of 64 bits.
    fn seed_from_u64(seed: u64) -> Self;
}

pub mod utils {
    //! Generators by the width of their words.

    /// A generator of words.
    pub trait NextWord<W> {
        /// Returns the next word.
        fn next_word(&mut self) -> W;
    }
}
