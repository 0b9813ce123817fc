//! Peers and records to put into the tables, and when two records are the same.

use net_addr::{NetAddr, Peer};
use peer_rec::{Buckets, Place, Rec};

/// The peer of a number: each number has its own.
pub(crate) fn peer_of(number: u32) -> Peer {
    Peer {
        addr: NetAddr::ipv4(number.to_be_bytes()),
        port: (number % 65_536) as u16,
    }
}

// One of the two places.
fn place_of(word: u64) -> Place {
    if word % 2 == 0 {
        Place::Tried
    } else {
        Place::New(Buckets::one((word % 1024) as u16))
    }
}

/// A record of a peer, whose other fields are made of a word.
pub(crate) fn record(peer: Peer, word: u64) -> Rec {
    let low = (word % 65_536) as u32;
    Rec {
        number: word,
        peer,
        source: NetAddr::ipv4(low.to_be_bytes()),
        time: low,
        services: word / 2,
        last_success: low / 3,
        last_try: low / 5,
        last_count: low / 7,
        attempts: low / 11,
        place: place_of(word),
    }
}

// Whether the places are the same.
fn is_same_place(a: &Place, b: &Place) -> bool {
    match (a, b) {
        (Place::New(a), Place::New(b)) => a.items() == b.items(),
        (Place::Tried, Place::Tried) => true,
        (Place::New(_), Place::Tried) | (Place::Tried, Place::New(_)) => false,
    }
}

/// Whether each field of the records is the same.
pub(crate) fn has_fields(a: &Rec, b: &Rec) -> bool {
    a.number == b.number
        && a.peer == b.peer
        && a.source == b.source
        && a.time == b.time
        && a.services == b.services
        && a.last_success == b.last_success
        && a.last_try == b.last_try
        && a.last_count == b.last_count
        && a.attempts == b.attempts
        && is_same_place(&a.place, &b.place)
}
