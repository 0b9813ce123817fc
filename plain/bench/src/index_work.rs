use crate::addresses::Addresses;
use crate::refusal::Refusal;
use net_addr::Peer;
use peer_index::PeerIndex;
use peer_rec::{Buckets, Place, Rec};
use plain_std::alloc::Global;
use plain_std::hash::{BuildHasherDefault, FoldHasher};

/// An index under std's own hasher.
pub(crate) type Index = PeerIndex<BuildHasherDefault<FoldHasher>>;

/// The maximum number of records that an index is filled with.
const MOST_RECORDS: usize = 10_000_000;
/// The records from one that is found or removed to the next one: a prime, so that each record
/// comes once unless their number is a multiple of it.
const STEP: u64 = 7_919;

/// A kind of work on an index.
#[derive(Clone, Copy, PartialEq, Eq)]
pub(crate) enum Kind {
    /// An index is made and filled this many times.
    Adds,
    /// An index is made and filled once, and this many times some of its records are found.
    Finds,
    /// An index is made and filled, and some of its records are removed, this many times.
    Removes,
    /// An index is made and filled once, and this many times some of its records are removed and
    /// added again.
    Turns,
}

/// Work on an index: how many records it has, how many of them are found or removed, and how often
/// the work is done.
#[derive(Clone, Copy)]
pub(crate) struct IndexWork {
    pub kind: Kind,
    pub records: u32,
    pub some: u32,
    pub times: u64,
}

impl IndexWork {
    /// Does the work, and gives a sum of what was found.
    pub fn run(self, alloc: Global) -> Result<u64, Refusal> {
        self.run_counted(alloc)
    }

    /// Does the work with a counter of steps.
    fn run_counted(self, alloc: Global) -> Result<u64, Refusal> {
        match self.kind {
            Kind::Adds => self.fill_often(alloc),
            Kind::Finds => self.find_often(alloc),
            Kind::Removes => self.remove_often(alloc),
            Kind::Turns => self.turn_often(alloc),
        }
    }

    // The peer of the record that comes at a turn.
    fn peer(self, turn: u32) -> Peer {
        peer_of(number_at(turn, self.records))
    }

    // The sum of the sizes of as many indexes as are made and filled.
    fn fill_often(self, alloc: Global) -> Result<u64, Refusal> {
        let mut sum: u64 = 0;
        for _ in 0..self.times {
            sum = sum.wrapping_add(filled(alloc, self.records)?.len() as u64);
        }
        Ok(sum)
    }

    // The sum of the ids of some records.
    fn find_some(self, index: &Index) -> u64 {
        let mut sum: u64 = 0;
        for turn in 0..self.some {
            if let Some(id) = index.find(&self.peer(turn)) {
                sum = sum.wrapping_add(id as u64);
            }
        }
        sum
    }

    // That sum, this many times.
    fn find_often(self, alloc: Global) -> Result<u64, Refusal> {
        let index = filled(alloc, self.records)?;
        let mut sum: u64 = 0;
        for _ in 0..self.times {
            sum = sum.wrapping_add(self.find_some(&index));
        }
        Ok(sum)
    }

    // Removes some records.
    fn remove_some(self, index: &mut Index) {
        for turn in 0..self.some {
            let peer = self.peer(turn);
            if index.find(&peer).is_some() {
                index.remove(&peer);
            }
        }
    }

    /// Fills an index and removes some of its records, `times` times. Returns the sum of the
    /// records that are left.
    fn remove_often(self, alloc: Global) -> Result<u64, Refusal> {
        let mut sum: u64 = 0;
        for _ in 0..self.times {
            let mut index = filled(alloc, self.records)?;
            self.remove_some(&mut index);
            sum = sum.wrapping_add(index.len() as u64);
        }
        Ok(sum)
    }

    /// Adds some records.
    fn add_some(self, index: &mut Index) -> Result<(), Refusal> {
        for turn in 0..self.some {
            add(index, number_at(turn, self.records))?;
        }
        Ok(())
    }

    /// Removes some records and adds them again, `times` times. Returns the size of the index.
    fn turn_often(self, alloc: Global) -> Result<u64, Refusal> {
        let mut index = filled(alloc, self.records)?;
        for _ in 0..self.times {
            self.remove_some(&mut index);
            self.add_some(&mut index)?;
        }
        Ok(index.len() as u64)
    }
}

/// The peer of a record, by its number.
fn peer_of(number: u64) -> Peer {
    Addresses::from_place(1, number).next_peer()
}

/// The number of the record of a turn.
fn number_at(turn: u32, records: u32) -> u64 {
    u64::from(turn) * STEP % u64::from(records).max(1)
}

/// A record of the peer.
fn record(number: u64, peer: Peer) -> Rec {
    Rec {
        number,
        peer,
        source: peer.addr,
        time: 0,
        services: 0,
        last_success: 0,
        last_try: 0,
        last_count: 0,
        attempts: 0,
        place: Place::New(Buckets::one(0)),
    }
}

/// Adds a record to the index, by its number. Its peer has to be new.
fn add(index: &mut Index, number: u64) -> Result<(), Refusal> {
    let peer = peer_of(number);
    if index.len() >= MOST_RECORDS || index.find(&peer).is_some() {
        return Err(Refusal::NotAdded);
    }
    match index.add(record(number, peer)) {
        Ok(_) => Ok(()),
        Err(_) => Err(Refusal::NoMemory),
    }
}

/// An index of this many records.
pub(crate) fn filled(alloc: Global, records: u32) -> Result<Index, Refusal> {
    let mut index = PeerIndex::make(alloc, BuildHasherDefault::new());
    for number in 0..records {
        add(&mut index, u64::from(number))?;
    }
    Ok(index)
}
