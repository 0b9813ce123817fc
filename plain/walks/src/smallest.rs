//! The smallest arguments: no bytes, no rows, and the number 0.

use bit_code::{BitOut, Coder};
use dot_runs::{put_path, put_row};
use net_addr::{put_hex, put_number, put_text};
use plain_std::alloc::Global;
use plain_std::vec::Vec;
use prefix_table::Table;

/// The text of no bytes, twice, and of the number 0 after no word.
pub(crate) fn zero_is_the_whole_text(alloc: Global) -> bool {
    let mut out = Vec::new(alloc);
    put_text(b"", &mut out).is_ok()
        && put_hex(b"", &[], &mut out).is_ok()
        && put_number(b"", 0, &mut out).is_ok()
        && out.as_slice() == b"0"
}

/// Whether no rows are a table, in which no address has a number.
pub(crate) fn no_rows_are_a_table(alloc: Global) -> bool {
    match Table::from_rows(alloc, &[]) {
        Ok(Some(table)) => table.rows().is_empty() && table.best(0) == 0,
        _ => false,
    }
}

/// Whether the instruction of number 0 is one bit.
pub(crate) fn the_first_instruction_is_a_bit(alloc: Global) -> bool {
    let mut out = BitOut::make(alloc);
    out.put_number(Coder::Kind, 0).is_ok() && out.len() == 1
}

/// Whether no marks have no rectangles, and those of the mark 0 have as many as those of another.
pub(crate) fn marks_of_0_are_drawn(alloc: Global) -> bool {
    let (mut out, mut other) = (Vec::new(alloc), Vec::new(alloc));
    put_path(&[], 0, 1, &mut out).is_ok()
        && put_row(&[], 0, 0, 0, &mut out).is_ok()
        && out.is_empty()
        && put_path(&[0; 64], 0, 1, &mut out).is_ok()
        && put_path(&[9; 64], 9, 1, &mut other).is_ok()
        && !out.is_empty()
        && out.as_slice() == other.as_slice()
}
