//! Tables under the key of zeros, and a sum over their order.

use net_addr::NetAddr;
use peer_rec::{Place, Rec};
use plain_std::hash::{BuildHasherDefault, FoldHasher};
use tables::Tables;

/// The hasher of the tables.
pub(crate) type Hasher = BuildHasherDefault<FoldHasher>;

/// Tables without an asmap.
pub(crate) type Tabled = Tables<'static, Hasher>;

/// Returns the source of a number.
pub(crate) fn source(number: u8) -> NetAddr {
    NetAddr::ipv4([number, 2, 3, 4])
}

/// Returns the buckets of a record.
pub(crate) fn buckets(rec: &Rec) -> &[u16] {
    match &rec.place {
        Place::New(buckets) => buckets.items(),
        Place::Tried => &[],
    }
}

/// Adds a number to a sum by its bytes (FNV-1a of 64 bits).
fn sum(start: u64, number: u64) -> u64 {
    let mut sum = start;
    for byte in number.to_le_bytes() {
        sum = (sum ^ u64::from(byte)).wrapping_mul(0x100_0000_01b3);
    }
    sum
}

/// Returns the sum of the numbers of the records in their order.
pub(crate) fn sum_of_order(tables: &Tabled) -> u64 {
    let mut digest = 0;
    for position in 0..tables.len() {
        digest = sum(digest, tables.order_at(position).number);
    }
    digest
}
