#![allow(deprecated)] // std has no other hasher that takes a key.

use std::hash::{BuildHasher, SipHasher};

/// Makes hashers whose key is given: the module cannot ask the system for one.
#[derive(Clone, Copy)]
pub struct Keyed {
    pub first: u64,
    pub second: u64,
}

impl BuildHasher for Keyed {
    type Hasher = SipHasher;

    fn build_hasher(&self) -> SipHasher {
        SipHasher::new_with_keys(self.first, self.second)
    }
}
