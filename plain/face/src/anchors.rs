//! The peers to which a node that starts again connects first.

use crate::message::copied;
use crate::{EncodeError, Entry, Memory};
use anchors_crate::AnchorsFault;
use plain_std::alloc::Global;
use thiserror::Error;

/// Why an `anchors.dat` is not read.
///
/// ```
/// let error = addrman::read_anchors(b"short", [0xf9, 0xbe, 0xb4, 0xd9]).unwrap_err();
/// assert_eq!(error.to_string(), "the file is no anchors.dat: truncated");
/// ```
#[derive(Clone, Copy, Debug, PartialEq, Eq, Error)]
pub enum AnchorsError {
    /// It is no such file: its first fault.
    #[error("the file is no anchors.dat: {0}")]
    Refused(AnchorsFault),
    /// Out of memory.
    #[error(transparent)]
    Memory(Memory),
}

impl From<AnchorsFault> for AnchorsError {
    fn from(fault: AnchorsFault) -> AnchorsError {
        match fault {
            AnchorsFault::Memory => AnchorsError::Memory(Memory),
            fault => AnchorsError::Refused(fault),
        }
    }
}

/// Writes the `anchors.dat` of these peers, at most 1000: those to which a node that stops has its
/// connections only for blocks. Bitcoin Core takes two.
///
/// `magic` is the four bytes that begin the messages and files of the chain.
///
/// # Errors
///
/// There are more than 1000, or no memory.
///
/// ```
/// use addrman::{Entry, Peer, read_anchors, write_anchors};
///
/// let peer: Peer = "8.8.8.8:8333".parse().unwrap();
/// let anchor = Entry::new(peer, 1, 1_700_000_000);
/// let magic = [0xf9, 0xbe, 0xb4, 0xd9];
/// let bytes = write_anchors(&[anchor], magic).unwrap();
/// assert_eq!(read_anchors(&bytes, magic).unwrap(), [anchor]);
/// ```
pub fn write_anchors(anchors: &[Entry], magic: [u8; 4]) -> Result<Vec<u8>, EncodeError> {
    if anchors.len() as u64 > anchors_crate::MAX_ANCHORS {
        return Err(EncodeError::TooMany);
    }
    let mut inner = Vec::new();
    inner
        .try_reserve_exact(anchors.len())
        .map_err(|_| EncodeError::Memory(Memory))?;
    inner.extend(anchors.iter().map(Entry::inner));
    let bytes = anchors_crate::write_file(Global, &inner, magic)
        .map_err(|_| EncodeError::Memory(Memory))?;
    copied(bytes.items()).map_err(EncodeError::Memory)
}

/// Reads an `anchors.dat`: the peers, in their order. One whose network is unknown has the address
/// `[::]`.
///
/// `magic` is the four bytes that begin the messages and files of the chain.
///
/// # Errors
///
/// The bytes are no such file, or there is no memory.
///
/// ```
/// use addrman::{AnchorsError, AnchorsFault, read_anchors};
///
/// let magic = [0xf9, 0xbe, 0xb4, 0xd9];
/// let fault = AnchorsError::Refused(AnchorsFault::Truncated);
/// assert_eq!(read_anchors(&[0], magic), Err(fault));
/// ```
pub fn read_anchors(bytes: &[u8], magic: [u8; 4]) -> Result<Vec<Entry>, AnchorsError> {
    let found = anchors_crate::read_file(Global, bytes, magic)?;
    let mut anchors = Vec::new();
    anchors
        .try_reserve_exact(found.items().len())
        .map_err(|_| AnchorsError::Memory(Memory))?;
    anchors.extend(found.items().iter().map(Entry::of));
    Ok(anchors)
}
