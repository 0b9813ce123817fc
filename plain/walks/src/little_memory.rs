//! Records and entries that are added when memory runs out. It holds with memory and without.

use crate::entries::{Tabled, source, sum_of_order};
use crate::four_classes::FourClasses;
use crate::plain::{Item, add_new, is_same};
use crate::samples::peer_of;
use net_addr::{Entry, NetAddr, Peer};
use peer_index::PeerIndex;
use plain_std::alloc::Global;
use plain_std::hash::BuildHasherDefault;
use plain_std::vec::Vec;

/// How many records are added, and how many entries.
const COUNT: u8 = 100;

/// Adds records to both, which are empty. Returns whether the list is longer by each, or as it
/// was.
fn is_steady_index(
    index: &mut PeerIndex<BuildHasherDefault<FourClasses>>,
    list: &mut Vec<Item>,
) -> bool {
    for number in 0..u32::from(COUNT) {
        let is_added = add_new(index, list, (number, u64::from(number)));
        if !is_added && index.find(&peer_of(number)).is_some() {
            // (it is the list that has no memory)
            return true;
        }
        if !is_same(index, list.as_slice()) {
            return false;
        }
    }
    true
}

/// Whether a record without memory leaves an index as it was.
pub(crate) fn leaves_the_index(alloc: Global) -> bool {
    let mut list = Vec::new(alloc);
    let mut index = PeerIndex::make(alloc, BuildHasherDefault::default());
    is_steady_index(&mut index, &mut list)
}

/// Returns the entry of a number: each has a group and so mostly a slot of its own.
fn entry_of(number: u8) -> Entry {
    Entry {
        time: 1_700_000_000,
        services: 1,
        peer: Peer {
            addr: NetAddr::ipv4([8, number, 8, 8]),
            port: 8333,
        },
    }
}

/// Adds an entry. Returns whether it has the next number or, without memory, nothing changed.
fn is_added_or_not(tables: &mut Tabled, number: u8) -> bool {
    let before = (tables.len(), sum_of_order(tables));
    let next = tables.next_number();
    if next >= 1_000 {
        return false;
    }
    let entry = entry_of(number);
    if tables
        .add(&entry, &source(1), 7200, 0, 1_700_000_000)
        .is_ok()
    {
        return tables.next_number() == next + 1;
    }
    tables.find(&entry.peer).is_none()
        && (tables.len(), sum_of_order(tables)) == before
        && tables.next_number() == next
}

/// Whether an entry without memory leaves the tables, which are empty, as they were.
pub(crate) fn leaves_the_tables(tables: &mut Tabled) -> bool {
    for number in 0..COUNT {
        if !is_added_or_not(tables, number) {
            return false;
        }
    }
    true
}
