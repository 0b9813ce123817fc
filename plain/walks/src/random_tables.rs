//! Random tables of two kinds.

use crate::table_texts::{put_row, read};
use plain_rand_core::{Rng, SeedableRng};
use plain_rand_xoshiro::Xoshiro256PlusPlus;
use plain_std::alloc::{AllocError, Global};
use plain_std::vec::Vec;
use prefix_table::{Row, Table};

/// The bits up to a length, and zeros.
pub(crate) fn cut(bits: u128, len: u8) -> u128 {
    if len == 0 || len > 128 {
        return 0;
    }
    bits >> (128 - len) << (128 - len)
}

/// Random address bits.
fn address(random: &mut Xoshiro256PlusPlus) -> u128 {
    (u128::from(random.next_u64()) << 64) | u128::from(random.next_u64())
}

/// Up to four more bits after a row, or a row of its own, with one of five numbers.
fn next_row(random: &mut Xoshiro256PlusPlus, rows: &[Row]) -> Row {
    let word = random.next_u64();
    let asn = (word % 5) as u32 + 1;
    let pick = (word / 8) as usize;
    let bits = address(random);
    if word % 3 != 0 && !rows.is_empty() {
        let around = rows[pick % rows.len()];
        let len = around.len.min(124) + (word / 16 % 4) as u8 + 1;
        let rest = bits & (u128::MAX - cut(u128::MAX, around.len));
        return Row {
            bits: cut(around.bits | rest, len),
            len,
            asn,
        };
    }
    let len = (word / 32 % 60) as u8;
    Row {
        bits: cut(bits, len),
        len,
        asn,
    }
}

/// Appends the lines of random rows, nested ones and ones with equal numbers among them.
fn put_random_rows(
    alloc: Global,
    seed: u64,
    count: usize,
    text: &mut Vec<u8>,
) -> Result<(), AllocError> {
    let mut random = Xoshiro256PlusPlus::seed_from_u64(seed);
    let mut rows = Vec::new(alloc);
    for _ in 0..count {
        let row = next_row(&mut random, rows.as_slice());
        if !rows
            .iter()
            .any(|other| other.bits == row.bits && other.len == row.len)
        {
            put_row(row, text)?;
            rows.push(row)?;
        }
    }
    Ok(())
}

/// Returns a table of random rows.
pub(crate) fn random_table(alloc: Global, seed: u64, count: usize) -> Option<Table> {
    let mut text = Vec::new(alloc);
    match put_random_rows(alloc, seed, count, &mut text) {
        Ok(()) => read(alloc, text.as_slice()),
        Err(_) => None,
    }
}

/// A prefix near to others, so that many lie in each other.
fn near_prefix(random: &mut Xoshiro256PlusPlus) -> (u128, u8) {
    let word = random.next_u64();
    let len = (word % 129) as u8;
    let high = u128::from(word / 256 % 4) << 126;
    let low = u128::from(word / 1024 % 16) << 60;
    (cut(high | low, len), len)
}

/// Distinct prefixes of `near_prefix`, in their order.
fn near_prefixes(
    alloc: Global,
    random: &mut Xoshiro256PlusPlus,
) -> Result<Vec<(u128, u8)>, AllocError> {
    let mut prefixes = Vec::new(alloc);
    for _ in 0..500 {
        prefixes.push(near_prefix(random))?;
    }
    prefixes.sort_unstable();
    prefixes.dedup();
    Ok(prefixes)
}

/// Appends the lines of such prefixes with one of three numbers each, the last first.
fn put_near_rows(alloc: Global, seed: u64, text: &mut Vec<u8>) -> Result<(), AllocError> {
    let mut random = Xoshiro256PlusPlus::seed_from_u64(seed);
    let prefixes = near_prefixes(alloc, &mut random)?;
    for (bits, len) in prefixes.iter().rev() {
        let row = Row {
            bits: *bits,
            len: *len,
            asn: 1 + (random.next_u64() % 3) as u32,
        };
        put_row(row, text)?;
    }
    Ok(())
}

/// Returns a table of such rows.
pub(crate) fn near_table(alloc: Global, seed: u64) -> Option<Table> {
    let mut text = Vec::new(alloc);
    match put_near_rows(alloc, seed, &mut text) {
        Ok(()) => read(alloc, text.as_slice()),
        Err(_) => None,
    }
}
