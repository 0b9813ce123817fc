//! Addresses and peers: their texts, their classes, and which are routable.

use std::net::{Ipv4Addr, Ipv6Addr};

use crate::text::{number, put_hex, put_number};

#[derive(Clone, Copy, PartialEq, Eq, Hash)]
pub enum Address {
    Ipv4([u8; 4]),
    Ipv6([u8; 16]),
    Onion([u8; 32]),
    I2p([u8; 32]),
    Cjdns([u8; 16]),
    Internal([u8; 10]),
}

#[derive(Clone, Copy, PartialEq, Eq, Hash)]
pub struct Peer {
    pub address: Address,
    pub port: u16,
}

/// The class of an address; the first six are the networks, too.
#[derive(Clone, Copy, PartialEq, Eq)]
pub enum Class {
    Ipv4,
    Ipv6,
    Onion,
    I2p,
    Cjdns,
    Internal,
    Unroutable,
}

pub const CLASSES: [(&[u8], Class); 7] = [
    (b"ipv4", Class::Ipv4),
    (b"ipv6", Class::Ipv6),
    (b"onion", Class::Onion),
    (b"i2p", Class::I2p),
    (b"cjdns", Class::Cjdns),
    (b"internal", Class::Internal),
    (b"unroutable", Class::Unroutable),
];

const IPV4_IN_IPV6: [u8; 12] = [0, 0, 0, 0, 0, 0, 0, 0, 0, 0, 0xff, 0xff];
const INTERNAL_IN_IPV6: [u8; 6] = [0xfd, 0x6b, 0x88, 0xc0, 0x87, 0x24];
const TOR_V2_IN_IPV6: [u8; 6] = [0xfd, 0x87, 0xd8, 0x7e, 0xeb, 0x43];

/// Whether sixteen bytes carry an IPv4 address or a Tor v2 one.
pub fn is_embedded(bytes: &[u8; 16]) -> bool {
    bytes.starts_with(&IPV4_IN_IPV6) || bytes.starts_with(&TOR_V2_IN_IPV6)
}

/// The first bits of `bytes` are those of `prefix`.
fn begins(bytes: &[u8], prefix: &[u8], bits: usize) -> bool {
    let (whole, left) = (bits / 8, bits % 8);
    bytes[..whole] == prefix[..whole] && (left == 0 || (bytes[whole] ^ prefix[whole]) >> (8 - left) == 0)
}

fn within(bytes: &[u8], ranges: &[(&[u8], usize)]) -> bool {
    ranges.iter().any(|&(prefix, bits)| begins(bytes, prefix, bits))
}

const RESERVED_IPV4: [(&[u8], usize); 11] = [
    (&[127], 8),
    (&[0], 8),
    (&[10], 8),
    (&[172, 16], 12),
    (&[192, 168], 16),
    (&[198, 18], 15),
    (&[169, 254], 16),
    (&[100, 64], 10),
    (&[192, 0, 2], 24),
    (&[198, 51, 100], 24),
    (&[203, 0, 113], 24),
];
const RESERVED_IPV6: [(&[u8], usize); 5] = [
    (&[0, 0, 0, 0, 0, 0, 0, 0, 0, 0, 0, 0, 0, 0, 0, 1], 128),
    (&[0xfe, 0x80, 0, 0, 0, 0, 0, 0], 64),
    (&[0xfc], 7),
    (&[0x20, 0x01, 0x00, 0x10], 28),
    (&[0x20, 0x01, 0x00, 0x20], 28),
];
const HURRICANE_ELECTRIC: (&[u8], usize) = (&[0x20, 0x01, 0x04, 0x70], 32);

impl Address {
    /// The address that sixteen bytes in the old form mean.
    pub fn from_sixteen(bytes: [u8; 16]) -> Address {
        if bytes.starts_with(&IPV4_IN_IPV6) {
            Address::Ipv4(bytes[12..].try_into().expect("four bytes"))
        } else if bytes.starts_with(&INTERNAL_IN_IPV6) {
            Address::Internal(bytes[6..].try_into().expect("ten bytes"))
        } else if bytes.starts_with(&TOR_V2_IN_IPV6) {
            Address::Ipv6([0; 16])
        } else {
            Address::Ipv6(bytes)
        }
    }

    /// The old form of an IPv4, IPv6 or internal address; others have none.
    pub fn to_sixteen(self) -> Option<[u8; 16]> {
        let mut bytes = [0; 16];
        match self {
            Address::Ipv4(four) => {
                bytes[..12].copy_from_slice(&IPV4_IN_IPV6);
                bytes[12..].copy_from_slice(&four);
            }
            Address::Ipv6(sixteen) => bytes = sixteen,
            Address::Internal(ten) => {
                bytes[..6].copy_from_slice(&INTERNAL_IN_IPV6);
                bytes[6..].copy_from_slice(&ten);
            }
            _ => return None,
        }
        Some(bytes)
    }

    pub fn bytes(&self) -> &[u8] {
        match self {
            Address::Ipv4(bytes) => bytes,
            Address::Ipv6(bytes) | Address::Cjdns(bytes) => bytes,
            Address::Onion(bytes) | Address::I2p(bytes) => bytes,
            Address::Internal(bytes) => bytes,
        }
    }

    pub fn network(&self) -> Class {
        match self {
            Address::Ipv4(_) => Class::Ipv4,
            Address::Ipv6(_) => Class::Ipv6,
            Address::Onion(_) => Class::Onion,
            Address::I2p(_) => Class::I2p,
            Address::Cjdns(_) => Class::Cjdns,
            Address::Internal(_) => Class::Internal,
        }
    }

    pub fn is_valid(&self) -> bool {
        match self {
            Address::Ipv4(bytes) => *bytes != [0; 4] && *bytes != [255; 4],
            Address::Ipv6(bytes) => *bytes != [0; 16] && !begins(bytes, &[0x20, 0x01, 0x0d, 0xb8], 32),
            Address::Cjdns(bytes) => bytes[0] == 0xfc,
            Address::Internal(_) => false,
            _ => true,
        }
    }

    pub fn is_routable(&self) -> bool {
        self.is_valid()
            && match self {
                Address::Ipv4(bytes) => !within(bytes, &RESERVED_IPV4),
                Address::Ipv6(bytes) => !within(bytes, &RESERVED_IPV6),
                _ => true,
            }
    }

    /// The IPv4 address that a routable address is or carries.
    pub fn carried_ipv4(&self) -> Option<[u8; 4]> {
        if !self.is_routable() {
            return None;
        }
        match self {
            Address::Ipv4(bytes) => Some(*bytes),
            Address::Ipv6(bytes) => {
                let part = |from: usize| <[u8; 4]>::try_from(&bytes[from..from + 4]).expect("four bytes");
                if begins(bytes, &[0, 0x64, 0xff, 0x9b, 0, 0, 0, 0, 0, 0, 0, 0], 96)
                    || begins(bytes, &[0, 0, 0, 0, 0, 0, 0, 0, 0xff, 0xff, 0, 0], 96)
                {
                    Some(part(12))
                } else if begins(bytes, &[0x20, 0x02], 16) {
                    Some(part(2))
                } else if begins(bytes, &[0x20, 0x01, 0, 0], 32) {
                    Some(part(12).map(|byte| !byte))
                } else {
                    None
                }
            }
            _ => None,
        }
    }

    pub fn class(&self) -> Class {
        match self {
            Address::Internal(_) => Class::Internal,
            _ if !self.is_routable() => Class::Unroutable,
            _ if self.carried_ipv4().is_some() => Class::Ipv4,
            _ => self.network(),
        }
    }

    /// How many bits of the address its group has, if no asmap says more.
    pub fn group_bits(&self) -> usize {
        match self.class() {
            Class::Unroutable => 0,
            Class::Ipv4 => 16,
            Class::Ipv6 if begins(self.bytes(), HURRICANE_ELECTRIC.0, HURRICANE_ELECTRIC.1) => 36,
            Class::Ipv6 => 32,
            Class::Onion | Class::I2p => 4,
            Class::Cjdns => 12,
            Class::Internal => 80,
        }
    }

    pub fn parse(text: &[u8]) -> Option<Address> {
        fn digits<const N: usize>(text: &[u8]) -> Option<[u8; N]> {
            let mut bytes = [0; N];
            hex::decode_to_slice(text, &mut bytes).ok()?;
            Some(bytes)
        }
        match text.first()? {
            b'[' => {
                let inner = text[1..].strip_suffix(b"]")?;
                if inner.contains(&b'.') {
                    return None;
                }
                let parsed: Ipv6Addr = std::str::from_utf8(inner).ok()?.parse().ok()?;
                Some(Address::from_sixteen(parsed.octets()))
            }
            b'0'..=b'9' => {
                let parsed: Ipv4Addr = std::str::from_utf8(text).ok()?.parse().ok()?;
                Some(Address::Ipv4(parsed.octets()))
            }
            _ => {
                let colon = text.iter().position(|&byte| byte == b':')?;
                let after = &text[colon + 1..];
                match &text[..colon] {
                    b"onion" => digits(after).map(Address::Onion),
                    b"i2p" => digits(after).map(Address::I2p),
                    b"cjdns" => digits(after).map(Address::Cjdns),
                    b"internal" => digits(after).map(Address::Internal),
                    _ => None,
                }
            }
        }
    }

    pub fn put(&self, out: &mut Vec<u8>) {
        let label: &[u8] = match self {
            Address::Ipv4(bytes) => return put_ipv4(bytes, out),
            Address::Ipv6(bytes) => {
                out.push(b'[');
                put_ipv6(bytes, out);
                return out.push(b']');
            }
            Address::Onion(_) => b"onion:",
            Address::I2p(_) => b"i2p:",
            Address::Cjdns(_) => b"cjdns:",
            Address::Internal(_) => b"internal:",
        };
        out.extend_from_slice(label);
        put_hex(self.bytes(), out);
    }
}

impl Peer {
    pub fn parse(text: &[u8]) -> Option<Peer> {
        let colon = text.iter().rposition(|&byte| byte == b':')?;
        let port = number(&text[colon + 1..], 65_535)? as u16;
        Some(Peer { address: Address::parse(&text[..colon])?, port })
    }

    pub fn put(&self, out: &mut Vec<u8>) {
        self.address.put(out);
        out.push(b':');
        put_number(self.port, out);
    }
}

pub fn put_ipv4(bytes: &[u8; 4], out: &mut Vec<u8>) {
    for (index, &byte) in bytes.iter().enumerate() {
        if index > 0 {
            out.push(b'.');
        }
        put_number(byte, out);
    }
}

/// Appends an IPv6 address as RFC 5952 says, never with a dotted tail.
pub fn put_ipv6(bytes: &[u8; 16], out: &mut Vec<u8>) {
    let groups: [u16; 8] = std::array::from_fn(|at| u16::from_be_bytes([bytes[2 * at], bytes[2 * at + 1]]));
    let (mut start, mut longest) = (8, 1);
    let mut at = 0;
    while at < 8 {
        let zeros = groups[at..].iter().take_while(|&&group| group == 0).count();
        if zeros > longest {
            (start, longest) = (at, zeros);
        }
        at += zeros.max(1);
    }
    let put_groups = |groups: &[u16], out: &mut Vec<u8>| {
        for (index, group) in groups.iter().enumerate() {
            if index > 0 {
                out.push(b':');
            }
            let digits = 4 - group.leading_zeros() as usize / 4;
            for place in (0..digits.max(1)).rev() {
                out.push(b"0123456789abcdef"[usize::from(group >> (4 * place) & 15)]);
            }
        }
    };
    if longest == 1 {
        return put_groups(&groups, out);
    }
    put_groups(&groups[..start], out);
    out.extend_from_slice(b"::");
    put_groups(&groups[start + longest..], out);
}
