use crate::refusal::Refusal;
use asmap_compile::{CompileFault, compile};
use plain_std::alloc::Global;
use prefix_table::Table;

/// Returns why a table is not compiled.
fn refusal_of(fault: CompileFault) -> Refusal {
    match fault {
        CompileFault::Memory => Refusal::NoMemory,
        CompileFault::Empty | CompileFault::TooLarge { .. } => Refusal::NotCompiled,
    }
}

/// Compiles the table this many times, and returns the sum, modulo 2^64, of the bits of the codes.
pub(crate) fn compile_often(alloc: Global, table: &Table, times: u64) -> Result<u64, Refusal> {
    let mut sum: u64 = 0;
    for _ in 0..times {
        let file = compile(alloc, table).map_err(refusal_of)?;
        sum = sum.wrapping_add(file.bits());
    }
    Ok(sum)
}
