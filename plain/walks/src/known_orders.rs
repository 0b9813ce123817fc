//! Ten thousand records whose order is known beforehand.

use crate::plain::{Item, add_new, is_same, swap};
use crate::samples::peer_of;
use peer_index::PeerIndex;
use plain_std::alloc::Global;
use plain_std::hash::BuildHasher;
use plain_std::vec::Vec;

/// Adds records of the numbers from the first to the last, in the list too. Returns whether both
/// are the same then.
fn add_all<H: BuildHasher>(
    index: &mut PeerIndex<H>,
    list: &mut Vec<Item>,
    (first, end): (u32, u32),
) -> bool {
    for number in first..end {
        if !add_new(index, list, (number, u64::from(number))) {
            return false;
        }
    }
    is_same(index, list.as_slice())
}

/// Removes the record at the position, in the list too. Returns whether it was found before, and
/// not after it.
fn remove<H: BuildHasher>(index: &mut PeerIndex<H>, list: &mut Vec<Item>, position: usize) -> bool {
    if position >= list.len() {
        return false;
    }
    let peer = peer_of(list.swap_remove(position).number);
    if index.find(&peer).is_none() {
        return false;
    }
    index.remove(&peer);
    index.find(&peer).is_none()
}

/// Removes as many records at the position, one after another, in the list too. Returns whether
/// both are the same then.
fn remove_some<H: BuildHasher>(
    index: &mut PeerIndex<H>,
    list: &mut Vec<Item>,
    (position, count): (usize, u32),
) -> bool {
    for _ in 0..count {
        if !remove(index, list, position) {
            return false;
        }
    }
    is_same(index, list.as_slice())
}

/// Removes some records at the start, in the middle and at the end.
fn remove_parts<H: BuildHasher>(index: &mut PeerIndex<H>, list: &mut Vec<Item>) -> bool {
    let parts = [
        (0, 1),
        (5_000, 1),
        (9_997, 1),
        (0, 500),
        (4_000, 500),
        (8_900, 97),
    ];
    for part in parts {
        if !remove_some(index, list, part) {
            return false;
        }
    }
    true
}

/// Exchanges some positions.
fn swap_pairs<H: BuildHasher>(index: &mut PeerIndex<H>, list: &mut Vec<Item>) -> bool {
    for pair in [(0, 8_899), (4_450, 4_451), (17, 17)] {
        if !swap(index, list, pair) || !is_same(index, list.as_slice()) {
            return false;
        }
    }
    true
}

/// Whether ten thousand records under the hasher are in the order of the list, when they are added,
/// when some are removed and some change positions, and when others come after them.
pub(crate) fn is_known_order<H: BuildHasher>(alloc: Global, hasher: H) -> bool {
    let mut list = Vec::new(alloc);
    let mut index = PeerIndex::make(alloc, hasher);
    add_all(&mut index, &mut list, (0, 10_000))
        && remove_parts(&mut index, &mut list)
        && swap_pairs(&mut index, &mut list)
        && add_all(&mut index, &mut list, (10_000, 11_100))
}
