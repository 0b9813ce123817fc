//! Groups, buckets and slots.

use arrayvec::ArrayVec;
use sha2::{Digest, Sha256};

use crate::address::{Address, Class, Peer};
use crate::asmap::Asmap;

pub const NEW_BUCKETS: usize = 1024;
pub const TRIED_BUCKETS: usize = 256;
pub const SLOTS: usize = 64;
const NEW_BUCKETS_OF_A_SOURCE: u64 = 64;
const TRIED_BUCKETS_OF_A_GROUP: u64 = 8;

pub type Group = ArrayVec<u8, 11>;

/// SHA-256 twice.
pub fn double_sha256(parts: &[&[u8]]) -> [u8; 32] {
    let mut hasher = Sha256::new();
    for part in parts {
        hasher.update(part);
    }
    Sha256::digest(hasher.finalize()).into()
}

fn hash_number(parts: &[&[u8]]) -> u64 {
    u64::from_le_bytes(double_sha256(parts)[..8].try_into().expect("eight bytes"))
}

/// What places depend on: the key and the asmap.
pub struct Places {
    pub key: [u8; 32],
    pub asmap: Option<Asmap>,
}

impl Places {
    pub fn asn(&self, address: &Address) -> u32 {
        self.asmap.as_ref().map_or(0, |asmap| asmap.number_of(address))
    }

    pub fn group(&self, address: &Address) -> Group {
        let mut group = Group::new();
        let asn = self.asn(address);
        if asn != 0 {
            group.push(2);
            group.extend(asn.to_le_bytes());
            return group;
        }
        group.push(match address.class() {
            Class::Unroutable => 0,
            Class::Ipv4 => 1,
            Class::Ipv6 => 2,
            Class::Onion => 3,
            Class::I2p => 4,
            Class::Cjdns => 5,
            Class::Internal => 6,
        });
        let carried = address.carried_ipv4();
        let bytes = carried.as_ref().map_or(address.bytes(), |four| &four[..]);
        let bits = address.group_bits();
        group.extend(bytes[..bits / 8].iter().copied());
        if bits % 8 > 0 {
            group.push(bytes[bits / 8] | 0xff >> (bits % 8));
        }
        group
    }

    pub fn new_bucket(&self, peer: &Peer, source: &Address) -> usize {
        let (group, from) = (self.group(&peer.address), self.group(source));
        let (group_length, from_length) = ([group.len() as u8], [from.len() as u8]);
        let index = hash_number(&[&self.key, &group_length, &group, &from_length, &from]) % NEW_BUCKETS_OF_A_SOURCE;
        let number = hash_number(&[&self.key, &from_length, &from, &index.to_le_bytes()]);
        (number % NEW_BUCKETS as u64) as usize
    }

    pub fn tried_bucket(&self, peer: &Peer) -> usize {
        let group = self.group(&peer.address);
        let index = hash_number(&[&self.key, &identity(peer)]) % TRIED_BUCKETS_OF_A_GROUP;
        let number = hash_number(&[&self.key, &[group.len() as u8], &group, &index.to_le_bytes()]);
        (number % TRIED_BUCKETS as u64) as usize
    }

    pub fn new_slot(&self, bucket: usize, peer: &Peer) -> usize {
        self.slot(b"N", bucket, peer)
    }

    /// The bucket and the slot of a peer in the tried table.
    pub fn tried_place(&self, peer: &Peer) -> (usize, usize) {
        let bucket = self.tried_bucket(peer);
        (bucket, self.slot(b"K", bucket, peer))
    }

    fn slot(&self, letter: &[u8], bucket: usize, peer: &Peer) -> usize {
        let number = hash_number(&[&self.key, letter, &(bucket as u32).to_le_bytes(), &identity(peer)]);
        (number % SLOTS as u64) as usize
    }
}

/// The bytes of a peer that are hashed: its address and port after their number.
fn identity(peer: &Peer) -> ArrayVec<u8, 35> {
    let old_form = peer.address.to_sixteen();
    let bytes = old_form.as_ref().map_or(peer.address.bytes(), |sixteen| &sixteen[..]);
    let mut identity = ArrayVec::new();
    identity.push(bytes.len() as u8 + 2);
    identity.extend(bytes.iter().copied());
    identity.extend(peer.port.to_be_bytes());
    identity
}
