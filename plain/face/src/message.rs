//! Messages that announce addresses.

use crate::{EncodeError, Entry, Form, MessageError};
use plain_std::alloc::Global;

/// Writes a message with those of the entries that its form has room for: IPv4 and IPv6 in `addr`,
/// and all but internal names in `addrv2` (BIP 155).
///
/// # Errors
///
/// There are more than 1000 entries, or no memory.
///
/// ```
/// use addrman::{Entry, Form, Peer, decode, encode};
///
/// let peer: Peer = "8.8.8.8:8333".parse().unwrap();
/// let entry = Entry::new(peer, 1, 1_700_000_000);
/// let payload = encode(Form::Addrv2, &[entry]).unwrap();
/// assert_eq!(decode(Form::Addrv2, &payload).unwrap(), [Some(entry)]);
/// ```
pub fn encode(form: Form, entries: &[Entry]) -> Result<Vec<u8>, EncodeError> {
    let mut inner = Vec::new();
    if entries.len() as u64 > crate::MAX_ENTRIES {
        return Err(EncodeError::TooMany);
    }
    inner
        .try_reserve_exact(entries.len())
        .map_err(|_| EncodeError::Memory(crate::Memory))?;
    inner.extend(entries.iter().map(Entry::inner));
    let bytes = node_face::write_message(Global, form, &inner)?;
    copied(bytes.items()).map_err(EncodeError::Memory)
}

/// Reads a message: its entries, `None` for one of an unknown network.
///
/// # Errors
///
/// The payload is no message of this form, or there is no memory.
///
/// ```
/// use addrman::{Form, MessageError, MsgFault, decode};
///
/// assert_eq!(decode(Form::Addr, &[0]), Ok(vec![]));
/// assert_eq!(decode(Form::Addr, &[1]), Err(MessageError::Malformed(MsgFault::Truncated)));
/// ```
pub fn decode(form: Form, payload: &[u8]) -> Result<Vec<Option<Entry>>, MessageError> {
    let found = addr_codecs::read_message(Global, form, payload)?;
    let mut entries = Vec::new();
    entries
        .try_reserve_exact(found.items().len())
        .map_err(|_| MessageError::Memory(crate::Memory))?;
    entries.extend(
        found
            .items()
            .iter()
            .map(|entry| entry.as_ref().map(Entry::of)),
    );
    Ok(entries)
}

/// Copies bytes.
pub(crate) fn copied(bytes: &[u8]) -> Result<Vec<u8>, crate::Memory> {
    let mut copy = Vec::new();
    copy.try_reserve_exact(bytes.len())?;
    copy.extend_from_slice(bytes);
    Ok(copy)
}
