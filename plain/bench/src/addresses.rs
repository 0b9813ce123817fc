use net_addr::{NetAddr, Peer};

/// What is added to the state for each word.
const STEP: u64 = 0x9E37_79B9_7F4A_7C15;

/// Addresses to look up, made of the words of SplitMix64 by Steele, Lea and Flood.
pub(crate) struct Addresses {
    state: u64,
}

impl Addresses {
    /// Starts with this seed.
    pub fn from_seed(state: u64) -> Addresses {
        Addresses { state }
    }

    /// Starts with this seed, after the first `words` words.
    pub fn from_place(seed: u64, words: u64) -> Addresses {
        Addresses {
            state: seed.wrapping_add(words.wrapping_mul(STEP)),
        }
    }

    /// Returns the next word.
    fn next_word(&mut self) -> u64 {
        self.state = self.state.wrapping_add(STEP);
        let mut word = self.state;
        word = (word ^ (word >> 30)).wrapping_mul(0xBF58_476D_1CE4_E5B9);
        word = (word ^ (word >> 27)).wrapping_mul(0x94D0_49BB_1331_11EB);
        word ^ (word >> 31)
    }

    /// Returns some `::ffff:a.b.c.d`, the form in which an asmap is asked for an IPv4 address.
    pub fn next_ipv4(&mut self) -> u128 {
        let low = self.next_word() >> 32;
        0xFFFF_0000_0000 | u128::from(low)
    }

    /// Returns some IPv4 address and port.
    pub fn next_peer(&mut self) -> Peer {
        let word = self.next_word();
        let address = (word >> 32) as u32;
        Peer {
            addr: NetAddr::ipv4(address.to_be_bytes()),
            port: (word % 65_536) as u16,
        }
    }

    /// Returns some address of 2000::/3, the global unicast addresses of RFC 4291.
    pub fn next_ipv6(&mut self) -> u128 {
        let high = (1 << 61) | (self.next_word() >> 3);
        (u128::from(high) << 64) | u128::from(self.next_word())
    }
}
