//! The largest tables and asmaps, and those that are too large by one.

use crate::table_texts::{put_row, read};
use asmap_back::{BackFault, decompile};
use asmap_compile::{CompileFault, compile};
use asmap_vm::{Sane, check};
use plain_std::alloc::{AllocError, Global};
use plain_std::vec::Vec;
use prefix_table::{MAX_TEXT, Row, Table, TableFault, put_table, read_table};

/// The maximum number of rows of a table.
const MOST: u32 = 2_000_000;
/// With this many large numbers, the code of `MOST` rows has exactly as many bits as a file may
/// have.
const LARGE: u32 = 1_678_761;

/// Returns the number of row `index`. The first `large` rows have numbers of 24 bits, and the last
/// of `MOST` rows has one of 33.
fn number_of(index: u32, large: u32) -> u32 {
    if index < large {
        return 491_521 + index % 2;
    }
    if index == MOST - 1 {
        return 33_521_664;
    }
    1 + index % 2
}

/// Returns a row of 21 bits.
fn row_of(path: u32, asn: u32) -> Row {
    Row {
        bits: u128::from(path) << 107,
        len: 21,
        asn,
    }
}

/// Returns the text of `count` rows, each beside the next.
fn text_of(alloc: Global, count: u32, large: u32) -> Result<Vec<u8>, AllocError> {
    let mut text = Vec::new(alloc);
    for index in 0..count {
        put_row(row_of(index, number_of(index, large)), &mut text)?;
    }
    Ok(text)
}

/// Whether the text of the table is this one.
fn is_printed(alloc: Global, table: &Table, text: &[u8]) -> bool {
    let mut printed = Vec::new(alloc);
    put_table(table, &mut printed).is_ok() && printed.as_slice() == text
}

/// Whether the table and its text come back from the asmap, whose third row has a large number.
fn is_back(alloc: Global, map: &Sane<'_>, table: &Table, text: &[u8]) -> bool {
    match decompile(alloc, map) {
        Ok(back) => {
            map.asn(3 << 107) == 491_522
                && back.rows() == table.rows()
                && is_printed(alloc, &back, text)
        }
        Err(_) => false,
    }
}

/// Whether the table of the text fills the largest file, and comes back.
fn is_full(alloc: Global, table: &Table, text: &[u8]) -> bool {
    match compile(alloc, table) {
        Ok(file) => {
            (file.bits(), file.code().len()) == (67_108_864, 8_388_608)
                && match check(file.code()) {
                    Ok(map) => is_back(alloc, &map, table, text),
                    Err(_) => false,
                }
        }
        Err(_) => false,
    }
}

/// Whether the text has a table that fills the largest file.
fn is_full_text(alloc: Global, text: &[u8]) -> bool {
    match read(alloc, text) {
        Some(table) => is_full(alloc, &table, text),
        None => false,
    }
}

/// Whether two million rows fill the largest file and come back.
pub(crate) fn two_million_rows_come_back(alloc: Global) -> bool {
    match text_of(alloc, MOST, LARGE) {
        Ok(text) => is_full_text(alloc, text.as_slice()),
        Err(_) => false,
    }
}

/// Whether the table of the text is too large for a file by one number.
fn is_too_large(alloc: Global, text: &[u8]) -> bool {
    match read(alloc, text) {
        Some(table) => matches!(
            compile(alloc, &table),
            Err(CompileFault::TooLarge { bits: 67_108_872 })
        ),
        None => false,
    }
}

/// Whether one large number more is too large.
pub(crate) fn one_large_number_more_is_too_large(alloc: Global) -> bool {
    match text_of(alloc, MOST, LARGE + 1) {
        Ok(text) => is_too_large(alloc, text.as_slice()),
        Err(_) => false,
    }
}

/// Whether the text has a row more than a table.
fn has_too_many(alloc: Global, text: &[u8]) -> bool {
    text.len() <= MAX_TEXT && matches!(read_table(alloc, text), Err(TableFault::TooMany))
}

/// Whether an asmap with one row more than a table may have is refused.
pub(crate) fn one_row_more_is_too_many(alloc: Global) -> bool {
    match text_of(alloc, MOST + 1, 0) {
        Ok(text) => has_too_many(alloc, text.as_slice()),
        Err(_) => false,
    }
}

/// Returns the text of a row above all and of a row below each path of 20 bits.
fn half_text(alloc: Global) -> Result<Vec<u8>, AllocError> {
    let mut text = Vec::new(alloc);
    text.extend_from_slice(b"::/0 AS1\n")?;
    for path in 0..1 << 20 {
        put_row(row_of(2 * path, 2), &mut text)?;
    }
    Ok(text)
}

/// Whether the file of the table has more rows than a table.
fn does_not_come_back(alloc: Global, table: &Table) -> bool {
    match compile(alloc, table) {
        Ok(file) => match check(file.code()) {
            Ok(map) => matches!(
                decompile(alloc, &map),
                Err(BackFault::TooMany { rows: 2_000_001 })
            ),
            Err(_) => false,
        },
        Err(_) => false,
    }
}

/// Whether the file of the table of the text has more rows than a table.
fn has_too_many_back(alloc: Global, text: &[u8]) -> bool {
    match read(alloc, text) {
        Some(table) => table.rows().len() == 1_048_577 && does_not_come_back(alloc, &table),
        None => false,
    }
}

/// Whether an asmap of more rows than a table has does not come back. Half of the addresses below
/// each path of 20 bits have the number of the row above them all, so that about twice as many rows
/// come back.
pub(crate) fn more_rows_than_a_table_do_not_come_back(alloc: Global) -> bool {
    match half_text(alloc) {
        Ok(text) => has_too_many_back(alloc, text.as_slice()),
        Err(_) => false,
    }
}
