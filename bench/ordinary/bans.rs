//! The list of bans.

use indexmap::IndexMap;
use serde_json::Value;

use crate::address::{put_ipv4, put_ipv6, Address, Peer};
use crate::peers::load;
use crate::text::{number, put_number, small};
use crate::Fault;

const MAX_FILE: u64 = 33_554_432;
const MAX_BANS: usize = 100_000;

#[derive(Clone, Copy, PartialEq, Eq, Hash)]
struct Subnet {
    address: Address,
    length: u8,
}

/// Sets all bits after the first `length` to zero.
fn clear<const N: usize>(mut bytes: [u8; N], length: u8) -> [u8; N] {
    for (index, byte) in bytes.iter_mut().enumerate() {
        let kept = usize::from(length).saturating_sub(8 * index).min(8);
        *byte &= !(0xffu16 >> kept) as u8;
    }
    bytes
}

impl Subnet {
    fn parse(text: &str) -> Option<Subnet> {
        if let Some(address @ (Address::Onion(_) | Address::I2p(_) | Address::Cjdns(_))) = Address::parse(text.as_bytes()) {
            return Some(Subnet { address, length: (8 * address.bytes().len()) as u8 });
        }
        let (host, length) = match text.split_once('/') {
            Some((host, length)) => (host, Some(length)),
            None => (text, None),
        };
        let most = if host.contains(':') { 128 } else { 32 };
        let length = match length {
            Some(length) => number(length.as_bytes(), most)? as u8,
            None => most as u8,
        };
        let address = match host.parse().ok()? {
            std::net::IpAddr::V4(four) => Address::Ipv4(clear(four.octets(), length)),
            std::net::IpAddr::V6(six) => match Address::from_sixteen(six.octets()) {
                Address::Ipv6(bytes) => Address::from_sixteen(clear(bytes, length)),
                _ => return None,
            },
        };
        (!matches!(address, Address::Internal(_))).then_some(Subnet { address, length })
    }

    fn covers(&self, address: &Address) -> bool {
        match (self.address, *address) {
            (Address::Ipv4(own), Address::Ipv4(bytes)) => clear(bytes, self.length) == own,
            (Address::Ipv6(own), Address::Ipv6(bytes)) => clear(bytes, self.length) == own,
            (own, other) => own == other,
        }
    }

    fn put(&self, out: &mut Vec<u8>) {
        match &self.address {
            Address::Ipv4(bytes) => put_ipv4(bytes, out),
            Address::Ipv6(bytes) => put_ipv6(bytes, out),
            other => return other.put(out),
        }
        out.push(b'/');
        put_number(self.length, out);
    }
}

/// Reads the file of the current folder: subnets and the times when their bans are over.
fn read() -> Result<IndexMap<Subnet, u32>, Fault> {
    let Some(bytes) = load("banlist.json", MAX_FILE)? else {
        return Ok(IndexMap::new());
    };
    let value: Value = serde_json::from_slice(&bytes).map_err(|_| Fault::Refused)?;
    let elements = value.get("banned_nets").and_then(Value::as_array).ok_or(Fault::Refused)?;
    let mut bans = IndexMap::with_capacity(elements.len());
    let mut count = 0;
    for element in elements {
        let whole = |name: &str| {
            let number = element.get(name)?;
            number.as_u64().or_else(|| number.as_i64().map(|_| 0)).map(|time| time.min(u32::MAX.into()) as u32)
        };
        let subnet = element.get("address").and_then(Value::as_str).and_then(Subnet::parse);
        if let (Some(1), Some(_), Some(until), Some(subnet)) =
            (whole("version"), whole("ban_created"), whole("banned_until"), subnet)
        {
            count += 1;
            bans.insert(subnet, until);
        }
    }
    if count > MAX_BANS {
        return Err(Fault::Refused);
    }
    Ok(bans)
}

/// Appends the first ban that covers an address and is not over.
pub fn banned(peer: &str, now: &str, out: &mut Vec<u8>) -> Result<(), Fault> {
    let peer = Peer::parse(peer.as_bytes()).ok_or(Fault::Usage)?;
    let now = small(now.as_bytes()).ok_or(Fault::Usage)?;
    match read()?.iter().find(|(subnet, &until)| until > now && subnet.covers(&peer.address)) {
        None => out.extend_from_slice(b"free\n"),
        Some((subnet, until)) => {
            out.extend_from_slice(b"banned ");
            subnet.put(out);
            out.push(b' ');
            put_number(*until, out);
            out.push(b'\n');
        }
    }
    Ok(())
}
