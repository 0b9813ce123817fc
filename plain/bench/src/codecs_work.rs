use crate::addresses::Addresses;
use crate::refusal::Refusal;
use addr_codecs::{Memory, read_addr, read_addrv2, write_addr, write_addrv2};
use host_io::Bytes;
use net_addr::{Entry, NetAddr};
use placing::Placer;
use plain_std::alloc::Global;
use plain_std::vec::Vec;

/// The entries of a message, as many as a message may have.
const ENTRIES: u32 = 1000;

/// A kind of work on messages.
#[derive(Clone, Copy, PartialEq, Eq)]
pub(crate) enum Kind {
    /// An `addr` message is read.
    ReadAddr,
    /// An `addrv2` message is read.
    ReadAddrv2,
    /// An `addr` message is written.
    WriteAddr,
    /// An `addrv2` message is written.
    WriteAddrv2,
    /// The bucket and the slot of each entry are computed.
    Place,
}

/// Work on a message of 1000 entries, and how often it is done.
#[derive(Clone, Copy)]
pub(crate) struct CodecsWork {
    pub kind: Kind,
    pub times: u64,
}

/// The entries of a message, each with an IPv4 address.
fn entries_of(alloc: Global) -> Result<Vec<Entry>, Refusal> {
    let mut addresses = Addresses::from_seed(1);
    let mut entries = Vec::new(alloc);
    for _ in 0..ENTRIES {
        let entry = Entry {
            time: 1_700_000_000,
            services: 1,
            peer: addresses.next_peer(),
        };
        entries.push(entry).map_err(|_| Refusal::NoMemory)?;
    }
    Ok(entries)
}

/// The number of bytes of a message that was written.
fn length_of(message: Result<Bytes, Memory>) -> Result<u64, Refusal> {
    match message {
        Ok(bytes) => Ok(bytes.items().len() as u64),
        Err(_) => Err(Refusal::NoMemory),
    }
}

/// The number of entries that are read of an `addr` message.
fn count_addr(alloc: Global, message: &[u8]) -> Result<u64, Refusal> {
    let entries = read_addr(alloc, message).map_err(|_| Refusal::NoMemory)?;
    Ok(entries.items().len() as u64)
}

/// The number of entries that are read of an `addrv2` message.
fn count_addrv2(alloc: Global, message: &[u8]) -> Result<u64, Refusal> {
    let entries = read_addrv2(alloc, message).map_err(|_| Refusal::NoMemory)?;
    Ok(entries.items().len() as u64)
}

impl CodecsWork {
    /// Does the work, and gives a sum of what was read, written or placed.
    pub fn run(self, alloc: Global) -> Result<u64, Refusal> {
        let entries = entries_of(alloc)?;
        let addr = write_addr(alloc, &entries).map_err(|_| Refusal::NoMemory)?;
        let addrv2 = write_addrv2(alloc, &entries).map_err(|_| Refusal::NoMemory)?;
        let placer = Placer::make([7; 32], None);
        let source = NetAddr::ipv4([8, 8, 8, 8]);
        let mut sum: u64 = 0;
        for _ in 0..self.times {
            let more = match self.kind {
                Kind::ReadAddr => count_addr(alloc, addr.items())?,
                Kind::ReadAddrv2 => count_addrv2(alloc, addrv2.items())?,
                Kind::WriteAddr => length_of(write_addr(alloc, &entries))?,
                Kind::WriteAddrv2 => length_of(write_addrv2(alloc, &entries))?,
                Kind::Place => slots(&placer, &source, &entries),
            };
            sum = sum.wrapping_add(more);
        }
        Ok(sum)
    }
}

/// The sum of the slots of the entries in their buckets.
fn slots(placer: &Placer<'_>, source: &NetAddr, entries: &[Entry]) -> u64 {
    let mut sum: u64 = 0;
    for entry in entries {
        let bucket = placer.new_bucket(&entry.peer, source);
        sum = sum.wrapping_add(u64::from(placer.new_slot(&entry.peer, bucket)));
    }
    sum
}
