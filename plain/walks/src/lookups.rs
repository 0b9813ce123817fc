//! The longest match in tables, beside lookups in the compiled tables and a walk over all rows.

use crate::random_tables::{cut, near_table, random_table};
use asmap_compile::compile;
use asmap_vm::{Sane, check};
use plain_std::alloc::Global;
use prefix_table::{Row, Table};

/// The first address of a row and its last, and those before and after them.
fn edges(row: &Row) -> [u128; 4] {
    let rest = if row.len == 0 || row.len > 128 {
        u128::MAX
    } else {
        u128::MAX >> (row.len - 1) >> 1
    };
    let last = row.bits | rest;
    [
        row.bits,
        last,
        row.bits.wrapping_sub(1),
        last.wrapping_add(1),
    ]
}

/// The number of the longest row that covers the address, by a walk over all rows.
fn plain_best(rows: &[Row], address: u128) -> u32 {
    let (mut best, mut len) = (0, 0);
    for row in rows {
        if cut(address, row.len) == row.bits && row.len >= len {
            best = row.asn;
            len = row.len;
        }
    }
    best
}

/// Whether the table and the compiled one give the address the number that the walk does.
fn is_same(table: &Table, map: &Sane<'_>, address: u128) -> bool {
    let want = plain_best(table.rows(), address);
    table.best(address) == want && map.asn(address) == want
}

/// Whether both give it to each address at the end of a row or beside one.
fn is_each_same(table: &Table, map: &Sane<'_>) -> bool {
    for row in table.rows() {
        for address in edges(row) {
            if !is_same(table, map, address) {
                return false;
            }
        }
    }
    true
}

/// Whether a table of more rows than these and the compiled one agree with the walk.
fn agrees(alloc: Global, table: &Table, rows: usize) -> bool {
    match compile(alloc, table) {
        Ok(file) => match check(file.code()) {
            Ok(map) => table.rows().len() > rows && is_each_same(table, &map),
            Err(_) => false,
        },
        Err(_) => false,
    }
}

/// Whether eight tables of random rows, nested ones among them, agree with the walk.
pub(crate) fn random_tables_agree(alloc: Global) -> bool {
    for seed in 1..=8u64 {
        match random_table(alloc, seed, 700) {
            Some(table) => {
                if !agrees(alloc, &table, 500) {
                    return false;
                }
            }
            None => return false,
        }
    }
    true
}

/// Whether eight tables of which many rows lie in each other agree with the walk.
pub(crate) fn near_tables_agree(alloc: Global) -> bool {
    for seed in 0..8u64 {
        match near_table(alloc, seed) {
            Some(table) => {
                if !agrees(alloc, &table, 100) {
                    return false;
                }
            }
            None => return false,
        }
    }
    true
}
