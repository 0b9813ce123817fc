//! Each write of a grid beside the same write of a plain list, and after it the slots of both.

use plain_rand_core::{Rng, SeedableRng};
use plain_rand_xoshiro::Xoshiro256PlusPlus;
use plain_std::alloc::Global;
use plain_std::vec;
use slot_grid::Grid;

/// How many writes the walk makes.
const WRITES: u32 = 2_000;

/// How many slots it writes to.
const WRITTEN: u32 = 128;

/// The slots of the new table, and those of both tables.
pub(crate) const NEW_SLOTS: u32 = 65_536;

pub(crate) const SLOTS: u32 = 81_920;

/// The buckets of the new and of the tried table that are written to, and the slots.
const NEW_BUCKETS: [u32; 8] = [0, 1, 2, 255, 256, 511, 1022, 1023];

const TRIED_BUCKETS: [u32; 8] = [0, 1, 2, 63, 64, 127, 254, 255];

const PLACES: [u32; 8] = [0, 1, 2, 31, 32, 61, 62, 63];

/// Returns the bucket and the slot of a number: those of the new table come first.
fn place_of(number: u32) -> (u16, u8) {
    ((number / 64 % 1024) as u16, (number % 64) as u8)
}

/// Puts an id into the slot of the number.
pub(crate) fn put(grid: &mut Grid, number: u32, id: Option<usize>) {
    let (bucket, slot) = place_of(number);
    if number < NEW_SLOTS {
        grid.set_new(bucket % 1024, slot % 64, id);
    } else {
        grid.set_tried(bucket % 256, slot % 64, id);
    }
}

/// Returns the id in the slot of the number.
pub(crate) fn id_at(grid: &Grid, number: u32) -> Option<usize> {
    let (bucket, slot) = place_of(number);
    if number < NEW_SLOTS {
        grid.new_at(bucket % 1024, slot % 64)
    } else {
        grid.tried_at(bucket % 256, slot % 64)
    }
}

/// Whether the bit of the number's slot is set in the mask of its bucket.
fn is_in_mask(grid: &Grid, number: u32) -> bool {
    let (bucket, _) = place_of(number);
    let mask = if number < NEW_SLOTS {
        grid.new_mask(bucket % 1024)
    } else {
        grid.tried_mask(bucket % 256)
    };
    mask >> (number % 64) & 1 == 1
}

/// Returns the number of one of the slots that are written to.
fn written(choice: u32) -> u32 {
    let row = (choice / 8 % 8) as usize;
    let slot = PLACES[(choice % 8) as usize];
    if (choice / 64) % 2 == 0 {
        NEW_BUCKETS[row] % 1024 * 64 + slot % 64
    } else {
        NEW_SLOTS + TRIED_BUCKETS[row] % 256 * 64 + slot % 64
    }
}

/// Whether both have the same in the slot of the number, and the mask has its bit.
fn is_same_at(grid: &Grid, list: &[Option<usize>], number: u32) -> bool {
    let want = list.get(number as usize).copied().unwrap_or(None);
    id_at(grid, number) == want && is_in_mask(grid, number) == want.is_some()
}

/// Whether both have the same in all slots.
fn is_same(grid: &Grid, list: &[Option<usize>]) -> bool {
    for number in 0..SLOTS {
        if !is_same_at(grid, list, number) {
            return false;
        }
    }
    true
}

/// Whether both have the same in the slots that are written to.
fn is_same_written(grid: &Grid, list: &[Option<usize>]) -> bool {
    for choice in 0..WRITTEN {
        if !is_same_at(grid, list, written(choice)) {
            return false;
        }
    }
    true
}

/// Writes an id, or none, to a slot of both.
fn write(grid: &mut Grid, list: &mut [Option<usize>], words: &mut Xoshiro256PlusPlus) {
    let number = written(words.next_u32() % WRITTEN);
    let word = words.next_u64();
    let id = if word % 3 == 0 {
        None
    } else {
        Some(word as usize)
    };
    put(grid, number, id);
    if let Some(slot) = list.get_mut(number as usize) {
        *slot = id;
    }
}

/// Makes many writes to both, and compares them after each.
fn is_same_after_each(grid: &mut Grid, list: &mut [Option<usize>]) -> bool {
    let mut words = Xoshiro256PlusPlus::seed_from_u64(3);
    for _ in 0..WRITES {
        write(grid, list, &mut words);
        if !is_same_written(grid, list) {
            return false;
        }
    }
    true
}

/// Compares a grid and a list that are empty, and then after writes.
fn compare(grid: &mut Grid, list: &mut [Option<usize>]) -> bool {
    is_same(grid, list) && is_same_after_each(grid, list) && is_same(grid, list)
}

/// Compares an empty grid and a list that is to be so.
fn compare_empty(alloc: Global, list: &mut [Option<usize>]) -> bool {
    match Grid::make(alloc) {
        Ok(mut grid) => compare(&mut grid, list),
        Err(_) => false,
    }
}

/// Whether after each write the slots and masks of a grid are those of a plain list.
pub(crate) fn is_as_a_list(alloc: Global) -> bool {
    let empty: Option<usize> = None;
    match vec![in alloc; empty; SLOTS as usize] {
        Ok(mut list) => compare_empty(alloc, list.as_mut_slice()),
        Err(_) => false,
    }
}
