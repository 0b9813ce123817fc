//! Addresses of the networks of BIP 155, and peers.

use crate::Network;
use net_addr::NetAddr;
use plain_std::alloc::Global;
use plain_std::vec::Vec;
use std::fmt;
use std::net::{IpAddr, Ipv4Addr, Ipv6Addr, SocketAddr};
use std::str::FromStr;
use thiserror::Error;

/// The text is that of no address, peer or subnet.
///
/// ```
/// use addrman::{ParseError, Peer};
///
/// assert_eq!("8.8.8.8".parse::<Peer>(), Err(ParseError));
/// assert_eq!(ParseError.to_string(), "the text has another form");
/// ```
#[derive(Clone, Copy, Debug, PartialEq, Eq, Error)]
#[error("the text has another form")]
pub struct ParseError;

/// The peer is of a network without IP addresses.
///
/// ```
/// use addrman::{Address, Network, NoSocket, Peer};
/// use std::net::SocketAddr;
///
/// let onion = Address::of(Network::Onion, &[7; 32]).unwrap();
/// assert_eq!(SocketAddr::try_from(Peer::new(onion, 8333)), Err(NoSocket));
/// ```
#[derive(Clone, Copy, Debug, PartialEq, Eq, Error)]
#[error("the peer has no IP address")]
pub struct NoSocket;

/// An address of one of the networks of BIP 155, or a name that a node resolves itself.
///
/// The text of an IPv6 address has brackets, and the others without IP addresses begin with the
/// name of their network, with their bytes in hexadecimal digits.
///
/// ```
/// use addrman::{Address, Network};
/// use std::net::Ipv4Addr;
///
/// let address = Address::from(Ipv4Addr::new(8, 8, 8, 8));
/// assert_eq!(address.to_string(), "8.8.8.8");
/// assert_eq!("8.8.8.8".parse(), Ok(address));
/// assert_eq!(address.network(), Network::Ipv4);
/// assert!(address.is_routable());
/// ```
#[derive(Clone, Copy, Debug, PartialEq, Eq, Hash)]
pub struct Address(pub(crate) NetAddr);

impl Address {
    /// Returns the address of a network with these bytes, in the order of the wire, or `None` if
    /// the network has none with these bytes.
    ///
    /// ```
    /// use addrman::{Address, Network};
    ///
    /// assert!(Address::of(Network::Onion, &[7; 32]).is_some());
    /// assert!(Address::of(Network::Onion, &[7; 10]).is_none());
    /// ```
    pub fn of(network: Network, bytes: &[u8]) -> Option<Address> {
        NetAddr::of(network, bytes).map(Address)
    }

    /// Returns the network.
    ///
    /// ```
    /// use addrman::{Address, Network};
    ///
    /// let mapped: std::net::Ipv6Addr = "::ffff:1.2.3.4".parse().unwrap();
    /// assert_eq!(Address::from(mapped).network(), Network::Ipv4);
    /// ```
    pub fn network(&self) -> Network {
        self.0.net()
    }

    /// Returns the bytes, in the order of the wire.
    ///
    /// ```
    /// # use addrman::Address;
    /// let address: Address = "1.2.3.4".parse().unwrap();
    /// assert_eq!(address.bytes(), [1, 2, 3, 4]);
    /// ```
    pub fn bytes(&self) -> &[u8] {
        self.0.bytes()
    }

    /// Returns the network that the address is reached through: that of the IPv4 address that an
    /// IPv6 address embeds, for example, and `Unroutable` if it cannot be reached.
    ///
    /// ```
    /// # use addrman::{Address, Network};
    /// let private: Address = "10.0.0.1".parse().unwrap();
    /// assert_eq!(private.reached_through(), Network::Unroutable);
    /// ```
    pub fn reached_through(&self) -> Network {
        self.0.net_class()
    }

    /// Returns whether the address can be reached over the public network.
    ///
    /// ```
    /// # use addrman::Address;
    /// let private: Address = "10.0.0.1".parse().unwrap();
    /// assert!(!private.is_routable());
    /// ```
    pub fn is_routable(&self) -> bool {
        self.0.is_routable()
    }

    /// Returns the IP address, of IPv4 and IPv6.
    ///
    /// ```
    /// # use addrman::Address;
    /// let address: Address = "1.2.3.4".parse().unwrap();
    /// assert_eq!(address.ip(), Some("1.2.3.4".parse().unwrap()));
    /// ```
    pub fn ip(&self) -> Option<IpAddr> {
        match self.0.net() {
            Network::Ipv4 => Some(<[u8; 4]>::try_from(self.bytes()).ok()?.into()),
            Network::Ipv6 => Some(<[u8; 16]>::try_from(self.bytes()).ok()?.into()),
            _ => None,
        }
    }
}

impl From<IpAddr> for Address {
    fn from(ip: IpAddr) -> Address {
        match ip {
            IpAddr::V4(ip) => ip.into(),
            IpAddr::V6(ip) => ip.into(),
        }
    }
}

impl From<Ipv4Addr> for Address {
    fn from(ip: Ipv4Addr) -> Address {
        Address(NetAddr::ipv4(ip.octets()))
    }
}

/// An address that embeds one of another network is that one, as in messages before BIP 155.
impl From<Ipv6Addr> for Address {
    fn from(ip: Ipv6Addr) -> Address {
        Address(NetAddr::from_v1(&ip.octets()))
    }
}

impl FromStr for Address {
    type Err = ParseError;

    fn from_str(text: &str) -> Result<Address, ParseError> {
        net_addr::parse_addr(text.as_bytes())
            .map(Address)
            .ok_or(ParseError)
    }
}

impl fmt::Display for Address {
    fn fmt(&self, f: &mut fmt::Formatter<'_>) -> fmt::Result {
        let mut text = Vec::new(Global);
        net_addr::put_addr(&self.0, &mut text).map_err(|_| fmt::Error)?;
        pad(f, &text)
    }
}

/// An address and a port.
///
/// ```
/// use addrman::Peer;
/// use std::net::SocketAddr;
///
/// let peer: Peer = "[2001:db8::1]:8333".parse().unwrap();
/// assert_eq!(peer.port(), 8333);
/// assert_eq!(peer.to_string(), "[2001:db8::1]:8333");
/// assert_eq!(SocketAddr::try_from(peer).map(Peer::from), Ok(peer));
/// ```
#[derive(Clone, Copy, Debug, PartialEq, Eq, Hash)]
pub struct Peer(pub(crate) net_addr::Peer);

impl Peer {
    /// Makes a peer.
    ///
    /// ```
    /// # use addrman::Peer;
    /// let peer = Peer::new(std::net::Ipv4Addr::new(1, 2, 3, 4), 8333);
    /// assert_eq!(peer.to_string(), "1.2.3.4:8333");
    /// ```
    pub fn new(address: impl Into<Address>, port: u16) -> Peer {
        let addr = address.into().0;
        Peer(net_addr::Peer { addr, port })
    }

    /// Returns the address.
    ///
    /// ```
    /// # use addrman::Peer;
    /// let peer: Peer = "1.2.3.4:8333".parse().unwrap();
    /// assert_eq!(peer.address().to_string(), "1.2.3.4");
    /// ```
    pub fn address(&self) -> Address {
        Address(self.0.addr)
    }

    /// Returns the port.
    ///
    /// ```
    /// # use addrman::Peer;
    /// assert_eq!("1.2.3.4:8333".parse::<Peer>().unwrap().port(), 8333);
    /// ```
    pub fn port(&self) -> u16 {
        self.0.port
    }
}

impl From<SocketAddr> for Peer {
    fn from(socket: SocketAddr) -> Peer {
        Peer::new(socket.ip(), socket.port())
    }
}

impl TryFrom<Peer> for SocketAddr {
    type Error = NoSocket;

    fn try_from(peer: Peer) -> Result<SocketAddr, NoSocket> {
        let ip = peer.address().ip().ok_or(NoSocket)?;
        Ok(SocketAddr::new(ip, peer.port()))
    }
}

impl FromStr for Peer {
    type Err = ParseError;

    fn from_str(text: &str) -> Result<Peer, ParseError> {
        net_addr::parse_peer(text.as_bytes())
            .map(Peer)
            .ok_or(ParseError)
    }
}

impl fmt::Display for Peer {
    fn fmt(&self, f: &mut fmt::Formatter<'_>) -> fmt::Result {
        let mut text = Vec::new(Global);
        net_addr::put_peer(&self.0, &mut text).map_err(|_| fmt::Error)?;
        pad(f, &text)
    }
}

/// Writes a text of ASCII characters.
pub(crate) fn pad(f: &mut fmt::Formatter<'_>, text: &[u8]) -> fmt::Result {
    f.pad(std::str::from_utf8(text).map_err(|_| fmt::Error)?)
}
