//! What a node is told of a peer, and what it knows of one.

use crate::{Address, Peer};
use peer_rec::Rec;

/// What a message says of a peer.
///
/// ```
/// use addrman::{Entry, Peer};
///
/// let peer: Peer = "8.8.8.8:8333".parse().unwrap();
/// assert_eq!(Entry::new(peer, 1, 1_700_000_000).services, 1);
/// ```
#[derive(Clone, Copy, Debug, PartialEq, Eq)]
#[cfg_attr(feature = "serde", derive(serde::Serialize, serde::Deserialize))]
pub struct Entry {
    /// The peer.
    pub peer: Peer,
    /// The services that it offers, a bit for each.
    pub services: u64,
    /// When it was last seen, in seconds since 1970.
    pub time: u32,
}

impl Entry {
    /// Makes an entry.
    ///
    /// ```
    /// # use addrman::{Entry, Peer};
    /// # let peer: Peer = "8.8.8.8:8333".parse().unwrap();
    /// assert_eq!(Entry::new(peer, 1, 1_700_000_000).peer, peer);
    /// ```
    pub fn new(peer: impl Into<Peer>, services: u64, time: u32) -> Entry {
        let peer = peer.into();
        Entry {
            peer,
            services,
            time,
        }
    }

    pub(crate) fn of(entry: &net_addr::Entry) -> Entry {
        Entry::new(Peer(entry.peer), entry.services, entry.time)
    }

    pub(crate) fn inner(&self) -> net_addr::Entry {
        net_addr::Entry {
            time: self.time,
            services: self.services,
            peer: self.peer.0,
        }
    }
}

/// How many entries a message has, and how many of them got a slot.
///
/// ```
/// use addrman::{AddrMan, Added, Address, Form};
/// # use rand_xoshiro::{Xoshiro256PlusPlus, rand_core::SeedableRng};
///
/// # let mut rng = Xoshiro256PlusPlus::seed_from_u64(1);
/// let mut peers = AddrMan::new(&mut rng).unwrap();
/// let source: Address = "1.2.3.4".parse().unwrap();
/// let added = peers.take_message(Form::Addr, &[0], source, 1_700_000_000, &mut rng);
/// assert_eq!(added, Ok(Added { total: 0, accepted: 0 }));
/// ```
#[derive(Clone, Copy, Debug, PartialEq, Eq)]
pub struct Added {
    /// How many entries the message has.
    pub total: u32,
    /// How many of them got a slot.
    pub accepted: u32,
}

/// A peer that was selected.
///
/// ```
/// use addrman::Pick;
///
/// let pick = Pick { peer: "8.8.8.8:8333".parse().unwrap(), last_try: None };
/// assert_eq!(pick.peer.port(), 8333);
/// ```
#[derive(Clone, Copy, Debug, PartialEq, Eq)]
#[cfg_attr(feature = "serde", derive(serde::Serialize, serde::Deserialize))]
pub struct Pick {
    /// The peer.
    pub peer: Peer,
    /// When the node last tried to connect to it, in seconds since 1970; `None` if never.
    pub last_try: Option<u32>,
}

impl Pick {
    pub(crate) fn of(peer: net_addr::Peer, last_try: u32) -> Pick {
        Pick {
            peer: Peer(peer),
            last_try: happened(last_try),
        }
    }
}

/// What is known of a peer. Times are in seconds since 1970, and `None` if the event has not
/// happened.
///
/// ```
/// use addrman::{AddrMan, Address, Entry, Peer};
/// # use rand_xoshiro::{Xoshiro256PlusPlus, rand_core::SeedableRng};
///
/// # let mut rng = Xoshiro256PlusPlus::seed_from_u64(1);
/// let (mut peers, now) = (AddrMan::new(&mut rng).unwrap(), 1_700_000_000);
/// let (peer, source): (Peer, Address) = ("8.8.8.8:8333".parse().unwrap(), "1.2.3.4".parse().unwrap());
/// peers.add(&Entry::new(peer, 9, now), source, 7200, now, &mut rng).unwrap();
/// peers.attempt(&peer, true, now + 60);
/// let record = peers.find(&peer).unwrap();
/// assert_eq!((record.services, record.time, record.attempts), (9, now - 7200, 1));
/// assert_eq!((record.last_try, record.last_success), (Some(now + 60), None));
/// ```
#[derive(Clone, Copy, Debug, PartialEq, Eq)]
#[cfg_attr(feature = "serde", derive(serde::Serialize, serde::Deserialize))]
pub struct Record {
    /// The number that the record got: later ones are higher.
    pub number: u64,
    /// The peer.
    pub peer: Peer,
    /// The address that first announced it.
    pub source: Address,
    /// The services that it offers, a bit for each.
    pub services: u64,
    /// When it was last seen, as far as the node knows.
    pub time: u32,
    /// When the node was last connected to it.
    pub last_success: Option<u32>,
    /// When the node last tried to connect to it.
    pub last_try: Option<u32>,
    /// When a try was last counted as a failure.
    pub last_counted: Option<u32>,
    /// The tries since the last success.
    pub attempts: u32,
    /// Whether it is in the table of peers that the node connected to.
    pub is_tried: bool,
}

impl Record {
    pub(crate) fn of(rec: &Rec) -> Record {
        Record {
            number: rec.number,
            peer: Peer(rec.peer),
            source: Address(rec.source),
            services: rec.services,
            time: rec.time,
            last_success: happened(rec.last_success),
            last_try: happened(rec.last_try),
            last_counted: happened(rec.last_count),
            attempts: rec.attempts,
            is_tried: rec.place.is_tried(),
        }
    }
}

fn happened(time: u32) -> Option<u32> {
    (time != 0).then_some(time)
}
