use crate::index_work::{Index, filled};
use crate::refusal::Refusal;
use plain_std::alloc::Global;
use slot_grid::Grid;

/// The slots of the new table, 1024 buckets of 64.
const NEW_SLOTS: usize = 65_536;

/// Puts an id into a slot by its index: the slots of the new table come first.
fn put(grid: &mut Grid, index: usize, id: usize) {
    let slot = (index % 64) as u8;
    if index < NEW_SLOTS {
        grid.set_new((index / 64) as u16, slot, Some(id));
    } else {
        grid.set_tried((index / 64 % 256) as u16, slot, Some(id));
    }
}

/// Puts the id of each record into a slot.
fn put_all(grid: &mut Grid, index: &Index) {
    for position in 0..index.len() {
        let id = index.at(position);
        put(grid, position, id);
    }
}

/// Makes and fills a grid and an index of this many records. Returns the number of the records.
pub(crate) fn fill_tables(alloc: Global, records: u32) -> Result<u64, Refusal> {
    fill_counted(alloc, records)
}

/// Makes and fills them with a counter of steps.
fn fill_counted(alloc: Global, records: u32) -> Result<u64, Refusal> {
    let mut grid = Grid::make(alloc).map_err(|_| Refusal::NoMemory)?;
    let index = filled(alloc, records)?;
    put_all(&mut grid, &index);
    Ok(index.len() as u64)
}
