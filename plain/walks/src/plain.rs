//! A plain list of records, in their order, and the calls that an index and the list are given
//! together.

use crate::samples::{has_fields, peer_of, record};
use peer_index::PeerIndex;
use plain_std::hash::BuildHasher;
use plain_std::vec::Vec;

/// A record of the list: its id, the number of its peer, and the word of its other fields.
#[derive(Clone, Copy)]
pub(crate) struct Item {
    pub id: usize,
    pub number: u32,
    pub word: u64,
}

/// Returns the position of the peer's record.
pub(crate) fn position_of(list: &[Item], number: u32) -> Option<usize> {
    list.iter().position(|item| item.number == number)
}

/// Whether the index has the item at the position, and finds it by its peer.
fn is_same_at<H: BuildHasher>(index: &PeerIndex<H>, position: usize, item: Item) -> bool {
    if position >= index.len() {
        return false;
    }
    let peer = peer_of(item.number);
    let id = index.at(position);
    id == item.id
        && has_fields(index.get(id), &record(peer, item.word))
        && index.find(&peer) == Some(id)
}

/// Whether the index has the list: the ids, and each field of the records.
pub(crate) fn is_same<H: BuildHasher>(index: &PeerIndex<H>, list: &[Item]) -> bool {
    if index.len() != list.len() {
        return false;
    }
    for (position, item) in list.iter().enumerate() {
        if !is_same_at(index, position, *item) {
            return false;
        }
    }
    true
}

/// Adds a record of the number, whose peer has to be new, and returns its id, unless the peer has
/// one or memory is out.
pub(crate) fn id_of_new<H: BuildHasher>(
    index: &mut PeerIndex<H>,
    (number, word): (u32, u64),
) -> Option<usize> {
    let peer = peer_of(number);
    if index.len() >= 1_000_000 || index.find(&peer).is_some() {
        return None;
    }
    index.add(record(peer, word)).ok()
}

/// Adds a record, whose peer has to be new, to both. Returns whether it did.
pub(crate) fn add_new<H: BuildHasher>(
    index: &mut PeerIndex<H>,
    list: &mut Vec<Item>,
    (number, word): (u32, u64),
) -> bool {
    match id_of_new(index, (number, word)) {
        Some(id) => list.push(Item { id, number, word }).is_ok(),
        None => false,
    }
}

/// Exchanges two positions in both. Returns whether both have them.
pub(crate) fn swap<H: BuildHasher>(
    index: &mut PeerIndex<H>,
    list: &mut Vec<Item>,
    (i, j): (usize, usize),
) -> bool {
    if i.max(j) >= index.len().min(list.len()) {
        return false;
    }
    index.swap(i, j);
    list.as_mut_slice().swap(i, j);
    true
}
