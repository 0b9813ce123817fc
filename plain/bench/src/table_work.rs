use crate::compile_work::compile_often;
use crate::numbers::{Numbers, sum_of};
use crate::refusal::Refusal;
use host_io::{Folder, Name};
use plain_std::alloc::Global;
use prefix_table::{MAX_TEXT, Table, TableFault, read_table};
use save_store::load;

/// What is done over prefixes.txt, and how often.
#[derive(Clone, Copy)]
pub(crate) enum TableWork {
    /// The text is read this many times.
    Reads(u64),
    /// The text is read once, and this many addresses are matched.
    Matches(u64),
    /// The text is read once, and the table is compiled this many times.
    Compiles(u64),
}

impl TableWork {
    /// Does the work over the text. Returns the sum of the rows that were read, of the numbers that
    /// were found, or of the bits that were written.
    pub fn run(self, alloc: Global, text: &[u8]) -> Result<u64, Refusal> {
        match self {
            TableWork::Reads(times) => read_often(alloc, text, times),
            TableWork::Matches(count) => Ok(sum_of(&read(alloc, text)?, count)),
            TableWork::Compiles(times) => compile_often(alloc, &read(alloc, text)?, times),
        }
    }
}

/// Loads prefixes.txt and does the work over it.
pub(crate) fn run_on_text<F: Folder>(
    alloc: Global,
    folder: &mut F,
    work: TableWork,
) -> Result<u64, Refusal> {
    match load(alloc, folder, Name::Prefixes, MAX_TEXT as u64) {
        Ok(Some(bytes)) => work.run(alloc, bytes.items()),
        Ok(None) => Err(Refusal::NoPrefixes),
        Err(_) => Err(Refusal::NotLoaded),
    }
}

/// Reads the table of the text.
fn read(alloc: Global, text: &[u8]) -> Result<Table, Refusal> {
    if text.len() > MAX_TEXT {
        return Err(Refusal::NoTable);
    }
    read_table(alloc, text).map_err(refusal_of)
}

/// Returns why a text is not read.
fn refusal_of(fault: TableFault) -> Refusal {
    match fault {
        TableFault::Memory => Refusal::NoMemory,
        _ => Refusal::NoTable,
    }
}

/// Reads the text this many times, and returns the sum, modulo 2^64, of the numbers of the rows.
fn read_often(alloc: Global, text: &[u8], times: u64) -> Result<u64, Refusal> {
    let mut sum: u64 = 0;
    for _ in 0..times {
        let table = read(alloc, text)?;
        sum = sum.wrapping_add(table.rows().len() as u64);
    }
    Ok(sum)
}

impl Numbers for Table {
    fn number(&self, address: u128) -> u32 {
        self.best(address)
    }
}
