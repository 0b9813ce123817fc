//! Tests by many calls: the slots, the order of records and the tables beside plain lists, full
//! containers, calls that run out of memory, tables of prefixes and their asmaps beside a walk over
//! all rows, the largest of them and that of no rows, texts of records, printed and read, and the hasher of the library
//! for C.

#![deny(unsafe_op_in_unsafe_fn)]
#![cfg(test)]

mod entries;
mod four_classes;
mod full_asmaps;
mod full_size;
mod grids;
mod kept_counts;
mod known_orders;
mod last_word;
mod little_memory;
mod lookups;
mod orders;
mod plain;
mod random_tables;
mod raw_texts;
mod samples;
mod seeds;
mod smallest;
mod table_texts;

use entries::Tabled;
use four_classes::FourClasses;
use last_word::LastWord;
use placing::Placer;
use plain_failing::{Failing, each};
use plain_std::alloc::Global;
use plain_std::hash::{BuildHasherDefault, FoldHasher};

#[global_allocator]
static FAILING: Failing = Failing;

/// Opens empty tables.
fn open() -> Option<Tabled> {
    let placer = Placer::make([0; 32], None);
    Tabled::open(Global, placer, BuildHasherDefault::default()).ok()
}

#[test]
fn after_each_call_the_order_is_that_of_a_plain_list() {
    let fold = BuildHasherDefault::<FoldHasher>::default();
    assert!(orders::is_as_a_list(Global, fold, 1));
}

#[test]
fn it_is_so_under_a_hasher_whose_keys_collide() {
    let classes = BuildHasherDefault::<FourClasses>::default();
    assert!(orders::is_as_a_list(Global, classes, 2));
}

#[test]
fn of_ten_thousand_records_those_that_stay_keep_their_ids() {
    let fold = BuildHasherDefault::<FoldHasher>::default();
    assert!(known_orders::is_known_order(Global, fold));
}

#[test]
fn ten_thousand_keep_them_too_under_another_hasher() {
    let words = BuildHasherDefault::<LastWord>::default();
    assert!(known_orders::is_known_order(Global, words));
}

#[test]
fn after_each_write_the_slots_and_masks_are_those_of_a_plain_list() {
    assert!(grids::is_as_a_list(Global));
}

#[test]
fn a_full_index_and_grid_find_each_record() {
    assert!(full_size::finds_each(Global));
}

#[test]
fn the_kept_counts_and_masks_are_those_of_the_records() {
    let mut tables = open().expect("there is memory");
    assert!(kept_counts::are_kept(&mut tables));
}

#[test]
fn a_record_without_memory_leaves_list_and_ids_as_they_were() {
    for steady in each(|| little_memory::leaves_the_index(Global)) {
        assert!(steady);
    }
}

#[test]
fn an_entry_without_memory_leaves_the_tables_as_they_were() {
    for steady in
        each(|| open().map_or(true, |mut tables| little_memory::leaves_the_tables(&mut tables)))
    {
        assert!(steady);
    }
}

#[test]
fn tables_and_asmaps_give_the_number_of_the_longest_row() {
    assert!(lookups::random_tables_agree(Global));
}

#[test]
fn near_rows_give_the_number_of_the_longest() {
    assert!(lookups::near_tables_agree(Global));
}

#[test]
fn two_million_rows_fill_the_largest_file_and_come_back() {
    assert!(full_asmaps::two_million_rows_come_back(Global));
}

#[test]
fn one_large_number_more_is_too_large() {
    assert!(full_asmaps::one_large_number_more_is_too_large(Global));
}

#[test]
fn one_row_more_is_too_many() {
    assert!(full_asmaps::one_row_more_is_too_many(Global));
}

#[test]
fn an_asmap_of_more_rows_than_a_table_has_does_not_come_back() {
    assert!(full_asmaps::more_rows_than_a_table_do_not_come_back(Global));
}

#[test]
fn what_raw_prints_is_read_as_the_slots_and_records() {
    for seed in 1..=12 {
        assert!(raw_texts::is_read_back(Global, seed), "{seed}");
    }
}

#[test]
fn the_first_fault_of_a_text_is_named_with_its_place() {
    assert_eq!(raw_texts::wrong_faults(Global), "");
}

#[test]
fn no_bytes_and_the_number_0_are_the_text_of_the_number() {
    assert!(smallest::zero_is_the_whole_text(Global));
}

#[test]
fn no_rows_are_a_table() {
    assert!(smallest::no_rows_are_a_table(Global));
}

#[test]
fn the_first_instruction_is_a_bit() {
    assert!(smallest::the_first_instruction_is_a_bit(Global));
}

#[test]
fn marks_of_0_are_drawn() {
    assert!(smallest::marks_of_0_are_drawn(Global));
}
