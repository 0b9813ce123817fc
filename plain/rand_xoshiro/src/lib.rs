//! xoshiro256++ by the crate `rand_xoshiro`.

#![deny(unsafe_op_in_unsafe_fn)]

use plain_rand_core::utils::NextWord;
use plain_rand_core::{Rng, SeedableRng};

/// The generator of Blackman and Vigna.
#[derive(Clone)]
pub struct Xoshiro256PlusPlus(rand_xoshiro::Xoshiro256PlusPlus);

impl SeedableRng for Xoshiro256PlusPlus {
    fn seed_from_u64(seed: u64) -> Self {
        Xoshiro256PlusPlus(rand_core::SeedableRng::seed_from_u64(seed))
    }
}

impl NextWord<u64> for Xoshiro256PlusPlus {
    fn next_word(&mut self) -> u64 {
        rand_core::RngCore::next_u64(&mut self.0)
    }
}

impl Rng for Xoshiro256PlusPlus {
    fn next_u32(&mut self) -> u32 {
        rand_core::RngCore::next_u32(&mut self.0)
    }

    fn next_u64(&mut self) -> u64 {
        rand_core::RngCore::next_u64(&mut self.0)
    }
}
