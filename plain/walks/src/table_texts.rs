//! Texts of tables of prefixes.

use net_addr::put_ipv6;
use plain_std::alloc::{AllocError, Global};
use plain_std::format;
use plain_std::vec::Vec;
use prefix_table::{MAX_TEXT, Row, Table, read_table};

/// Appends the line of a row.
pub(crate) fn put_row(row: Row, text: &mut Vec<u8>) -> Result<(), AllocError> {
    if put_ipv6(row.bits, text).is_err() {
        return Err(AllocError);
    }
    let end = format!(in *text.allocator(); "/{} AS{}\n", row.len, row.asn)?;
    text.extend_from_slice(end.as_bytes())
}

/// Reads the table of the text.
pub(crate) fn read(alloc: Global, text: &[u8]) -> Option<Table> {
    if text.len() > MAX_TEXT {
        return None;
    }
    read_table(alloc, text).ok()
}
