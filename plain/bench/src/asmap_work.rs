use crate::numbers::{Numbers, sum_of};
use crate::refusal::Refusal;
use asmap_vm::{Sane, check};
use host_io::{Folder, Name};
use plain_std::alloc::Global;
use save_store::load;

/// The maximum number of bytes that asmap.dat may have.
const MOST_ASMAP_BYTES: u64 = 8_388_608;

/// What is done over asmap.dat, and how often.
#[derive(Clone, Copy)]
pub(crate) enum AsmapWork {
    /// The file is checked once, and this many addresses are looked up.
    Lookups(u64),
    /// The file is checked this many times.
    Checks(u64),
}

impl AsmapWork {
    /// Does the work over the bytes of the file. Returns the sum of the numbers that were looked
    /// up, or how often the file was checked.
    pub fn run(self, code: &[u8]) -> Result<u64, Refusal> {
        match self {
            AsmapWork::Lookups(count) => {
                let sane = check(code).map_err(|_| Refusal::Insane)?;
                Ok(sum_of(&sane, count))
            }
            AsmapWork::Checks(count) => {
                check_often(code, count)?;
                Ok(count)
            }
        }
    }
}

/// Loads asmap.dat and does the work over it.
pub(crate) fn run_on_asmap<F: Folder>(
    alloc: Global,
    folder: &mut F,
    work: AsmapWork,
) -> Result<u64, Refusal> {
    match load(alloc, folder, Name::Asmap, MOST_ASMAP_BYTES) {
        Ok(Some(bytes)) => work.run(bytes.items()),
        Ok(None) => Err(Refusal::NoAsmap),
        Err(_) => Err(Refusal::NotLoaded),
    }
}

impl Numbers for Sane<'_> {
    fn number(&self, address: u128) -> u32 {
        self.asn(address)
    }
}

/// Checks the bytes `times` times.
fn check_often(code: &[u8], times: u64) -> Result<(), Refusal> {
    for _ in 0..times {
        if check(code).is_err() {
            return Err(Refusal::Insane);
        }
    }
    Ok(())
}
