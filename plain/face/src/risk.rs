//! Which part of the picks returns a peer of somebody's.
use crate::{Memory, ParseError};
use crate::manager::AddrMan;
use plain_std::alloc::Global;
use plain_std::vec;
use risk_parts::{AddrSet, Parts, parse_set};
use std::str::FromStr;

/// Some addresses: those of a subnet, or those that an autonomous system announces.
///
/// ```
/// use addrman::AddressSet;
///
/// assert!("1.2.0.0/16".parse::<AddressSet>().is_ok());
/// assert!("AS64500".parse::<AddressSet>().is_ok());
/// assert!("AS0".parse::<AddressSet>().is_err());
/// ```
#[derive(Clone, Copy)]
pub struct AddressSet(AddrSet);

/// The text of a [`Subnet`](crate::Subnet), or `AS` and a number from 1 to 4294967295.
impl FromStr for AddressSet {
    type Err = ParseError;

    fn from_str(text: &str) -> Result<AddressSet, ParseError> {
        parse_set(text.as_bytes())
            .map(AddressSet)
            .ok_or(ParseError)
    }
}

impl AddrMan {
    /// Returns which part of the picks at a time returns a peer whose address is in one of the sets,
    /// at most, in parts of a million: of those from both tables (`picks`), of those from the new
    /// table alone (`new`), and of the searches of the tried table (`tried`).
    ///
    /// An autonomous system has the addresses that the asmap gives it, none without an asmap.
    ///
    /// # Errors
    ///
    /// Out of memory.
    ///
    /// ```
    /// # use addrman::{AddrMan, Entry, Peer};
    /// # use rand_xoshiro::{Xoshiro256PlusPlus, rand_core::SeedableRng};
    /// # let mut rng = Xoshiro256PlusPlus::seed_from_u64(1);
    /// # let mut peers = AddrMan::with_key([7; 32], None).unwrap();
    /// let peer: Peer = "8.8.8.8:8333".parse().unwrap();
    /// let source: addrman::Address = "1.2.3.4".parse().unwrap();
    /// peers.add(&Entry::new(peer, 1, 5_000), source, 0, 5_000, &mut rng).unwrap();
    ///
    /// let whole = peers.risk(&["8.8.0.0/16".parse().unwrap()], 5_000).unwrap();
    /// assert_eq!((whole.picks, whole.new, whole.tried), (1_000_000, 1_000_000, 0));
    /// let none = peers.risk(&["9.9.0.0/16".parse().unwrap(), "AS1".parse().unwrap()], 5_000).unwrap();
    /// assert_eq!(none.picks, 0);
    /// ```
    pub fn risk(&self, sets: &[AddressSet], now: u32) -> Result<Parts, Memory> {
        let mut all = vec::Vec::new(Global);
        for set in sets {
            all.push(set.0).map_err(|_| Memory)?;
        }
        Ok(table_risk::set_parts(Global, &self.tables, all.as_slice(), now)?)
    }
}
