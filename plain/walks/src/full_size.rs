//! An index and a grid of the greatest size, filled by their own calls.

use crate::grids::{SLOTS, id_at, put};
use crate::plain::id_of_new;
use crate::samples::peer_of;
use peer_index::PeerIndex;
use plain_std::alloc::Global;
use plain_std::hash::{BuildHasher, BuildHasherDefault, FoldHasher};
use slot_grid::Grid;

/// Adds a record of each number, and puts it into the number's slot. Returns whether all were new.
fn fill<H: BuildHasher>(index: &mut PeerIndex<H>, grid: &mut Grid) -> bool {
    for number in 0..SLOTS {
        let id = id_of_new(index, (number, u64::from(number)));
        if id.is_none() {
            return false;
        }
        put(grid, number, id);
    }
    index.len() == SLOTS as usize
}

/// Whether the record of the number is the one whose id is in the number's slot.
fn is_found<H: BuildHasher>(index: &PeerIndex<H>, grid: &Grid, number: u32) -> bool {
    match index.find(&peer_of(number)) {
        Some(id) => id_at(grid, number) == Some(id) && index.get(id).number == u64::from(number),
        None => false,
    }
}

/// Whether each record is found by its slot.
fn is_each_found<H: BuildHasher>(index: &PeerIndex<H>, grid: &Grid) -> bool {
    for number in 0..SLOTS {
        if !is_found(index, grid, number) {
            return false;
        }
    }
    true
}

/// Fills the grid and an index, and finds each record by its slot.
fn is_full(alloc: Global, grid: &mut Grid) -> bool {
    let hasher: BuildHasherDefault<FoldHasher> = BuildHasherDefault::default();
    let mut index = PeerIndex::make(alloc, hasher);
    fill(&mut index, grid) && is_each_found(&index, grid)
}

/// Whether a full index and a full grid find each record.
pub(crate) fn finds_each(alloc: Global) -> bool {
    match Grid::make(alloc) {
        Ok(mut grid) => is_full(alloc, &mut grid),
        Err(_) => false,
    }
}
