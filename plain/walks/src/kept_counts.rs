//! The kept counts and masks of the tables, after each of many random calls.

use crate::entries::{Tabled, buckets, source};
use net_addr::{Entry, Net, NetAddr, NetSet, Peer};
use peer_rec::Recs;

/// When the first call is made, in seconds since 1970.
const NOW: u32 = 1_700_000_000;

/// Networks, of which each peer below has one.
const NETS: [Net; 5] = [Net::Ipv4, Net::Ipv6, Net::Onion, Net::I2p, Net::Cjdns];

/// Returns the next of a sequence of numbers.
fn step(state: u64) -> u64 {
    state
        .wrapping_mul(6_364_136_223_846_793_005)
        .wrapping_add(1_442_695_040_888_963_407)
}

/// Returns one of 64 peers of each network.
fn peer_of(word: u64) -> Peer {
    let number = (word >> 8 & 63) as u8;
    let mut ipv6 = [0x2au8; 16];
    let mut cjdns = [0xfcu8; 16];
    let mut long = [7u8; 32];
    ipv6[2] = number;
    cjdns[2] = number;
    long[2] = number;
    let addr = match word % 5 {
        0 => NetAddr::of(Net::Ipv6, &ipv6),
        1 => NetAddr::of(Net::Onion, &long),
        2 => NetAddr::of(Net::I2p, &long),
        3 => NetAddr::of(Net::Cjdns, &cjdns),
        _ => None,
    };
    Peer {
        addr: addr.unwrap_or(NetAddr::ipv4([8, 8, number, 8])),
        port: 8333 + (word >> 16 & 3) as u16,
    }
}

/// How many of the records are of the network, in new and in tried.
fn count_of(recs: &Recs, net: Net) -> (u32, u32) {
    let (mut new, mut tried) = (0u32, 0u32);
    for rec in recs.items() {
        if rec.peer.addr.net() == net {
            if rec.place.is_tried() {
                tried = tried.wrapping_add(1);
            } else {
                new = new.wrapping_add(1);
            }
        }
    }
    (new, tried)
}

/// Whether the kept counts of each network are those of the records, and the counts of all their
/// sums.
fn is_counted(tables: &Tabled, recs: &Recs) -> bool {
    let (mut new, mut tried) = (0u32, 0u32);
    for net in NETS {
        let count = count_of(recs, net);
        if tables.wanted(NetSet::none().with(net)) != count {
            return false;
        }
        new = new.wrapping_add(count.0);
        tried = tried.wrapping_add(count.1);
    }
    let counts = tables.counts();
    tables.wanted(NetSet::all()) == (new, tried)
        && (counts.new_count, counts.tried_count) == (new, tried)
}

/// Returns how many slots of the new and of the tried table the records have.
fn slots_of(recs: &Recs) -> (usize, usize) {
    let (mut new, mut tried) = (0usize, 0usize);
    for rec in recs.items() {
        new = new.wrapping_add(buckets(rec).len());
        tried = tried.wrapping_add(usize::from(rec.place.is_tried()));
    }
    (new, tried)
}

/// Returns how many bits are set in the masks of the new and of the tried table.
fn bits_of(tables: &Tabled) -> (usize, usize) {
    let (mut new, mut tried) = (0usize, 0usize);
    for bucket in 0..1024 {
        new = new.wrapping_add(tables.new_mask(bucket).count_ones() as usize);
    }
    for bucket in 0..256 {
        tried = tried.wrapping_add(tables.tried_mask(bucket).count_ones() as usize);
    }
    (new, tried)
}

/// Makes some call: an entry is added, or a peer is reached, with a test of its slot or without.
/// Returns whether there was memory for it.
fn call(tables: &mut Tabled, word: u64, now: u32) -> bool {
    let peer = peer_of(word >> 20);
    if word >> 10 & 3 == 0 {
        let _ = tables.good(&peer, word >> 12 & 1 == 0, now);
        return true;
    }
    let entry = Entry {
        time: now,
        services: 1,
        peer,
    };
    let source = source((word >> 2 & 7) as u8);
    tables.next_number() < 1_000_000 && tables.add(&entry, &source, 0, word >> 50, now).is_ok()
}

/// Whether the kept counts and masks are those of the records.
fn is_kept(tables: &Tabled) -> bool {
    match tables.recs() {
        Ok(recs) => is_counted(tables, &recs) && bits_of(tables) == slots_of(&recs),
        Err(_) => false,
    }
}

/// Whether the kept counts and masks of tables, which are empty, are those of the records after
/// each fiftieth of many random calls: entries of five networks are added, evicted as they grow
/// old, moved and displaced.
pub(crate) fn are_kept(tables: &mut Tabled) -> bool {
    let mut state = 5;
    for turn in 0..6000u32 {
        state = step(state);
        if !call(tables, state, NOW + 3600 * turn) {
            return false;
        }
        if turn % 50 == 0 && !is_kept(tables) {
            return false;
        }
    }
    true
}
