use crate::refusal::Refusal;
use log_lines::split_line;
use plain_std::alloc::{AllocError, Global};
use plain_std::vec;
use plain_std::vec::Vec;

/// The bytes of the log that is split into lines.
const LOG_BYTES: usize = 16_777_216;

/// A log of comment lines of `length` bytes each, with their line feeds, is split into its lines
/// `times` times.
#[derive(Clone, Copy)]
pub(crate) struct LinesWork {
    pub length: u32,
    pub times: u64,
}

impl LinesWork {
    /// Does the work, and gives the number of lines that were split off.
    pub fn run(self, alloc: Global) -> Result<u64, Refusal> {
        if self.length == 0 {
            return Err(Refusal::Usage);
        }
        let log = comment_log(alloc, LOG_BYTES, self.length as usize);
        let log = log.map_err(|_| Refusal::NoMemory)?;
        let mut lines: u64 = 0;
        for _ in 0..self.times {
            lines = lines.wrapping_add(count_lines(&log));
        }
        Ok(lines)
    }
}

/// A log of this many bytes, whose lines have `length` bytes with their line feeds.
fn comment_log(alloc: Global, bytes: usize, length: usize) -> Result<Vec<u8>, AllocError> {
    let mut log = vec![in alloc; b'#'; bytes]?;
    for (i, byte) in log.iter_mut().enumerate() {
        if i % length == length - 1 {
            *byte = b'\n';
        }
    }
    Ok(log)
}

/// How many lines a log has.
fn count_lines(log: &[u8]) -> u64 {
    let mut rest = log;
    for count in 0..u64::MAX {
        if rest.is_empty() {
            return count;
        }
        let (_, after) = split_line(rest);
        rest = after;
    }
    u64::MAX
}
