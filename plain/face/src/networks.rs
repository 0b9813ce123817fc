//! Sets of networks.

use crate::Network;
use net_addr::NetSet;
use std::ops::BitOr;

const EACH: [Network; 7] = [
    Network::Unroutable,
    Network::Ipv4,
    Network::Ipv6,
    Network::Onion,
    Network::I2p,
    Network::Cjdns,
    Network::Internal,
];

/// A set of networks.
///
/// ```
/// use addrman::{Network, Networks};
///
/// let both = Networks::IPV4 | Networks::IPV6;
/// assert!(both.has(Network::Ipv6) && !both.has(Network::Onion));
/// ```
#[derive(Clone, Copy, Debug, PartialEq, Eq, Hash)]
pub struct Networks(u8);

impl Networks {
    /// No network.
    ///
    /// ```
    /// # use addrman::{Network, Networks};
    /// assert!(!Networks::NONE.has(Network::Ipv4));
    /// ```
    pub const NONE: Networks = Networks(0);
    /// All of them, and addresses that cannot be reached.
    ///
    /// ```
    /// # use addrman::{Network, Networks};
    /// assert!(Networks::ALL.has(Network::Unroutable));
    /// ```
    pub const ALL: Networks = Networks(0x7f);
    /// IPv4.
    ///
    /// ```
    /// # use addrman::{Network, Networks};
    /// assert_eq!(Networks::IPV4, Networks::from(Network::Ipv4));
    /// ```
    pub const IPV4: Networks = Networks(1 << 1);
    /// IPv6.
    ///
    /// ```
    /// # use addrman::{Network, Networks};
    /// assert_eq!(Networks::IPV6, Networks::from(Network::Ipv6));
    /// ```
    pub const IPV6: Networks = Networks(1 << 2);
    /// Tor v3.
    ///
    /// ```
    /// # use addrman::{Network, Networks};
    /// assert_eq!(Networks::ONION, Networks::from(Network::Onion));
    /// ```
    pub const ONION: Networks = Networks(1 << 3);
    /// I2P.
    ///
    /// ```
    /// # use addrman::{Network, Networks};
    /// assert_eq!(Networks::I2P, Networks::from(Network::I2p));
    /// ```
    pub const I2P: Networks = Networks(1 << 4);
    /// CJDNS.
    ///
    /// ```
    /// # use addrman::{Network, Networks};
    /// assert_eq!(Networks::CJDNS, Networks::from(Network::Cjdns));
    /// ```
    pub const CJDNS: Networks = Networks(1 << 5);

    /// Returns whether a network is in the set.
    ///
    /// ```
    /// # use addrman::{Network, Networks};
    /// assert!(Networks::ONION.has(Network::Onion));
    /// ```
    pub fn has(self, network: Network) -> bool {
        self.0 >> network.number() & 1 == 1
    }

    pub(crate) fn set(self) -> NetSet {
        let wanted = EACH.into_iter().filter(|network| self.has(*network));
        wanted.fold(NetSet::none(), NetSet::with)
    }
}

impl From<Network> for Networks {
    fn from(network: Network) -> Networks {
        Networks(1 << network.number())
    }
}

impl BitOr for Networks {
    type Output = Networks;

    fn bitor(self, other: Networks) -> Networks {
        Networks(self.0 | other.0)
    }
}
