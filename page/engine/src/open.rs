//! Opens the files of the folder as the program does. Where that is refused, the caller runs the
//! program, which says why.

use crate::columns::Columns;
use crate::folder::Files;
use crate::groups::NoMemory;
use crate::keyed::Keyed;
use asmap_vm::{Sane, check};
use bit_code::MAX_ASMAP;
use host_io::Name;
use peers_file::{Chain, MAX_FILE, read_file};
use placing::{Placer, SumRule};
use plain_std::alloc::Global;
use raw_read::{Field, MAX_TEXT, RawFault, RawTable, read_raw};
use tables::Tables;

/// The bytes of `asmap.dat`, if it is there; `None` if the program refuses them.
fn map_of(files: &Files) -> Option<Option<Sane<'_>>> {
    match files.file_of(Name::Asmap) {
        None => Some(None),
        Some(bytes) if bytes.len() > MAX_ASMAP => None,
        Some(bytes) => check(bytes).ok().map(Some),
    }
}

/// Opens `peers.dat` under `asmap.dat`, with the checksum of an asmap by this rule. The chain is
/// that of the file's first bytes. Returns nothing if the program has something to refuse, or if
/// there is no memory.
pub fn open_peers(files: &Files, rule: SumRule, key: Keyed) -> Option<Columns> {
    let bytes = files.file_of(Name::Peers)?;
    let magic = u32::from_be_bytes(*bytes.first_chunk()?);
    if bytes.len() > MAX_FILE {
        return None;
    }
    let map = map_of(files)?;
    let snap = read_file(Global, bytes, Chain::Other { magic }).ok()?;
    let placer = Placer::make(snap.key(), map).with_rule(rule);
    let tables = Tables::restore(Global, &snap, placer, key).ok()?;
    Columns::of_tables(&tables, key).ok()
}

/// Reads what `getrawaddrman` printed, with groups by `asmap.dat`. An error is what there is to say
/// of it; it is empty if the program refuses the asmap.
pub fn open_raw(files: &Files, text: &[u8], key: Keyed) -> Result<Columns, String> {
    let map = map_of(files).ok_or_else(String::new)?;
    if text.len() > MAX_TEXT {
        return Err(fault_text(RawFault::TooLarge));
    }
    let raw = read_raw(Global, text).map_err(fault_text)?;
    let placer = Placer::make([0; 32], map);
    Columns::of_raw(&raw, &placer, key).map_err(|NoMemory| fault_text(RawFault::Memory))
}

fn table_name(table: RawTable) -> &'static str {
    match table {
        RawTable::New => "new",
        RawTable::Tried => "tried",
    }
}

fn field_name(field: Field) -> &'static str {
    match field {
        Field::Address => "address",
        Field::Port => "port",
        Field::Services => "services",
        Field::Time => "time",
        Field::Source => "source",
    }
}

/// Says why a text is not read.
fn fault_text(fault: RawFault) -> String {
    let why = match fault {
        RawFault::Json => "json, it is no JSON text".into(),
        RawFault::Form => "form, it is no object with the objects \"new\" and \"tried\"".into(),
        RawFault::Slot { table, index } => format!("{} member {index}: slot", table_name(table)),
        RawFault::Row {
            table,
            bucket,
            position,
            field,
        } => {
            let (table, field) = (table_name(table), field_name(field));
            format!("{table}/{bucket}/{position}: {field}")
        }
        RawFault::TooLarge => "too-large".into(),
        RawFault::Memory => return "addrman: out of memory".into(),
    };
    format!("the text of getrawaddrman is refused: {why}")
}
