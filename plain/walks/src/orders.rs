//! Each call of the index beside the same call of a plain list, and after it the whole of both.

use crate::plain::{Item, add_new, is_same, position_of, swap};
use crate::samples::{peer_of, record};
use peer_index::PeerIndex;
use plain_rand_core::{Rng, SeedableRng};
use plain_rand_xoshiro::Xoshiro256PlusPlus;
use plain_std::alloc::Global;
use plain_std::hash::BuildHasher;
use plain_std::vec::Vec;

/// How many calls a walk makes.
const CALLS: u32 = 2_500;

/// How many peers they are about.
const PEERS: u32 = 96;

/// Removes the peer's record from both, if they have one.
fn remove<H: BuildHasher>(index: &mut PeerIndex<H>, list: &mut Vec<Item>, number: u32) {
    let peer = peer_of(number);
    if index.find(&peer).is_some() {
        index.remove(&peer);
    }
    if let Some(position) = position_of(list, number) {
        let _ = list.swap_remove(position);
    }
}

/// Replaces the peer's record in both, if they have one.
fn set<H: BuildHasher>(index: &mut PeerIndex<H>, list: &mut Vec<Item>, (number, word): (u32, u64)) {
    let peer = peer_of(number);
    if let Some(id) = index.find(&peer) {
        if index.get(id).peer == peer {
            index.set(id, record(peer, word));
        }
    }
    for item in list.iter_mut() {
        if item.number == number {
            item.word = word;
        }
    }
}

/// Exchanges two positions in both, if they have some.
fn swap_some<H: BuildHasher>(index: &mut PeerIndex<H>, list: &mut Vec<Item>, word: u64) {
    let count = index.len();
    if count > 0 {
        let pair = (
            (word % 1024) as usize % count,
            (word / 1024 % 1024) as usize % count,
        );
        let _ = swap(index, list, pair);
    }
}

/// Makes some call, about some peer.
fn step<H: BuildHasher>(
    words: &mut Xoshiro256PlusPlus,
    index: &mut PeerIndex<H>,
    list: &mut Vec<Item>,
) {
    let word = words.next_u64();
    let item = (words.next_u32() % PEERS, words.next_u64());
    match word % 8 {
        0..=2 => {
            let _ = add_new(index, list, item);
        }
        3 | 4 => remove(index, list, item.0),
        5 | 6 => set(index, list, item),
        _ => swap_some(index, list, item.1),
    }
}

/// Whether no peer without a record is found.
fn is_absent<H: BuildHasher>(index: &PeerIndex<H>, list: &[Item]) -> bool {
    for number in 0..PEERS {
        let is_found = index.find(&peer_of(number)).is_some();
        if is_found != position_of(list, number).is_some() {
            return false;
        }
    }
    true
}

/// Makes many calls, and compares both after each.
fn make_calls<H: BuildHasher>(index: &mut PeerIndex<H>, list: &mut Vec<Item>, seed: u64) -> bool {
    let mut words = Xoshiro256PlusPlus::seed_from_u64(seed);
    for _ in 0..CALLS {
        step(&mut words, index, list);
        if !is_same(index, list.as_slice()) || !is_absent(index, list.as_slice()) {
            return false;
        }
    }
    true
}

/// Whether an index under the hasher is as the list after each of many random calls.
pub(crate) fn is_as_a_list<H: BuildHasher>(alloc: Global, hasher: H, seed: u64) -> bool {
    let mut list = Vec::new(alloc);
    let mut index = PeerIndex::make(alloc, hasher);
    make_calls(&mut index, &mut list, seed)
}
