//! Messages `addr` and `addrv2`, and numbers in bytes.

use crate::address::{is_embedded, Address};

pub struct Entry {
    pub time: u32,
    pub services: u64,
    /// None of an address that a node does not keep.
    pub address: Option<Address>,
    pub port: u16,
}

/// Bytes, read from the start.
pub struct Reader<'a>(pub &'a [u8]);

impl<'a> Reader<'a> {
    pub fn take(&mut self, count: usize) -> Result<&'a [u8], &'static str> {
        if count > self.0.len() {
            return Err("truncated");
        }
        let (taken, left) = self.0.split_at(count);
        self.0 = left;
        Ok(taken)
    }

    pub fn array<const N: usize>(&mut self) -> Result<[u8; N], &'static str> {
        Ok(self.take(N)?.try_into().expect("as many bytes as were taken"))
    }

    pub fn byte(&mut self) -> Result<u8, &'static str> {
        Ok(self.array::<1>()?[0])
    }

    pub fn u32(&mut self) -> Result<u32, &'static str> {
        Ok(u32::from_le_bytes(self.array()?))
    }

    pub fn i32(&mut self) -> Result<i32, &'static str> {
        Ok(i32::from_le_bytes(self.array()?))
    }

    pub fn u64(&mut self) -> Result<u64, &'static str> {
        Ok(u64::from_le_bytes(self.array()?))
    }

    pub fn port(&mut self) -> Result<u16, &'static str> {
        Ok(u16::from_be_bytes(self.array()?))
    }

    pub fn compact_size(&mut self) -> Result<u64, &'static str> {
        let (value, least) = match self.byte()? {
            253 => (u16::from_le_bytes(self.array()?).into(), 253),
            254 => (self.u32()?.into(), 1 << 16),
            255 => (self.u64()?, 1 << 32),
            small => return Ok(small.into()),
        };
        if value < least {
            return Err("non-canonical");
        }
        Ok(value)
    }

    /// An address as in an `addrv2` message.
    pub fn address(&mut self) -> Result<Option<Address>, &'static str> {
        let network = self.byte()?;
        let length = self.compact_size()?;
        if length > 512 {
            return Err("too-long");
        }
        let wanted = match network {
            1 => 4,
            2 | 6 => 16,
            4 | 5 => 32,
            _ => length,
        };
        if length != wanted {
            return Err("bad-length");
        }
        Ok(match network {
            1 => Some(Address::Ipv4(self.array()?)),
            2 => {
                let bytes = self.array()?;
                (!is_embedded(&bytes)).then(|| Address::from_sixteen(bytes))
            }
            4 => Some(Address::Onion(self.array()?)),
            5 => Some(Address::I2p(self.array()?)),
            6 => Some(Address::Cjdns(self.array()?)),
            _ => {
                self.take(length as usize)?;
                None
            }
        })
    }
}

pub fn put_compact_size(value: u64, out: &mut Vec<u8>) {
    match value {
        0..=252 => out.push(value as u8),
        253..=0xffff => {
            out.push(253);
            out.extend_from_slice(&(value as u16).to_le_bytes());
        }
        0x1_0000..=0xffff_ffff => {
            out.push(254);
            out.extend_from_slice(&(value as u32).to_le_bytes());
        }
        _ => {
            out.push(255);
            out.extend_from_slice(&value.to_le_bytes());
        }
    }
}

/// Appends an address as in an `addrv2` message; an internal name is an IPv6 address there.
pub fn put_address(address: &Address, out: &mut Vec<u8>) {
    let old_form = address.to_sixteen();
    let (network, bytes): (u8, &[u8]) = match address {
        Address::Ipv4(bytes) => (1, bytes),
        Address::Ipv6(bytes) => (2, bytes),
        Address::Internal(_) => (2, old_form.as_ref().expect("internal names have an old form")),
        Address::Onion(bytes) => (4, bytes),
        Address::I2p(bytes) => (5, bytes),
        Address::Cjdns(bytes) => (6, bytes),
    };
    out.push(network);
    put_compact_size(bytes.len() as u64, out);
    out.extend_from_slice(bytes);
}

/// Reads a message, an `addrv2` one if `second`; the fault is the word of the reply.
pub fn read_message(payload: &[u8], second: bool) -> Result<Vec<Entry>, &'static str> {
    let mut reader = Reader(payload);
    let count = reader.compact_size()?;
    if count > 1000 {
        return Err("too-many");
    }
    let mut entries = Vec::with_capacity(count as usize);
    for _ in 0..count {
        let time = reader.u32()?;
        let (services, address) = if second {
            (reader.compact_size()?, reader.address()?)
        } else {
            (reader.u64()?, Some(Address::from_sixteen(reader.array()?)))
        };
        entries.push(Entry { time, services, address, port: reader.port()? });
    }
    if !reader.0.is_empty() {
        return Err("trailing");
    }
    Ok(entries)
}

/// Appends the `addrv2` form of an entry whose address is kept.
pub fn put_entry(time: u32, services: u64, address: &Address, port: u16, out: &mut Vec<u8>) {
    out.extend_from_slice(&time.to_le_bytes());
    put_compact_size(services, out);
    put_address(address, out);
    out.extend_from_slice(&port.to_be_bytes());
}
