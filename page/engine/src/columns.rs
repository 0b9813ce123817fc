//! The tables of a file as columns, for a page that draws them: for each slot the position of its
//! record, and for each record what is known of it.

use crate::groups::{Groups, NoMemory};
use crate::keyed::Keyed;
use crate::texts::Texts;
use net_addr::{NetAddr, Peer};
use placing::Placer;
use raw_read::{Raw, RawRows};
use slot_grid::{NEW_BUCKETS, SLOTS, TRIED_BUCKETS};
use std::collections::HashMap;
use std::collections::hash_map::Entry;
use std::hash::Hash;
use tables::Tables;

/// How many columns there are. The first ones, up to `GROUP_NAMES`, are known when tables are
/// opened, the others when texts are asked for.
pub const COLUMNS: usize = 15;
/// For each slot, those of the new table first, the position of its record, or -1: four bytes, as
/// all numbers here with the lowest byte first.
const SLOT: usize = 0;
const PORT: usize = 1;
/// One byte a record, by `Net::number`.
const NETWORK: usize = 2;
/// One byte a record: whether it is in the tried table.
const TABLE: usize = 3;
const TIME: usize = 4;
const SERVICES: usize = 5;
const SUCCESS: usize = 6;
const TRIES: usize = 7;
/// The number of the group of the peer, four bytes.
const GROUP: usize = 8;
const SOURCE_GROUP: usize = 9;
/// The names of the groups by their numbers, a line each.
const GROUP_NAMES: usize = 10;
/// The names of addresses and their texts in a log, a line for each record.
const NAME: usize = 11;
const FORM: usize = 12;
const SOURCE: usize = 13;
const SOURCE_FORM: usize = 14;

const NEW_SLOTS: usize = NEW_BUCKETS as usize * SLOTS as usize;
const ALL_SLOTS: usize = NEW_SLOTS + TRIED_BUCKETS as usize * SLOTS as usize;

/// What is known of a record.
struct Row {
    peer: Peer,
    source: NetAddr,
    time: u32,
    services: u64,
    success: u32,
    tries: u32,
    is_tried: bool,
}

/// The columns of the tables that were opened last.
pub struct Columns {
    rows: Vec<Row>,
    columns: [Vec<u8>; COLUMNS],
}

impl Columns {
    pub const fn new() -> Columns {
        Columns {
            rows: Vec::new(),
            columns: [const { Vec::new() }; COLUMNS],
        }
    }

    /// Returns the bytes of a column.
    pub fn get(&self, column: usize) -> &[u8] {
        self.columns.get(column).map_or(&[], Vec::as_slice)
    }

    /// Takes the tables of a file.
    pub fn of_tables(tables: &Tables<'_, Keyed>, key: Keyed) -> Result<Columns, NoMemory> {
        let mut found = Found::new(key)?;
        for at in 0..ALL_SLOTS {
            let (bucket, slot, is_tried) = place_of(at);
            let rec = if is_tried {
                tables.tried_rec_at(bucket, slot)
            } else {
                tables.new_rec_at(bucket, slot)
            };
            if let Some(rec) = rec {
                // While the tables are borrowed, a record is where it is.
                found.put(at, std::ptr::from_ref(rec), || Row {
                    peer: rec.peer,
                    source: rec.source,
                    time: rec.time,
                    services: rec.services,
                    success: rec.last_success,
                    tries: rec.attempts,
                    is_tried,
                })?;
            }
        }
        found.columns(Groups::new(tables.placer(), key))
    }

    /// Takes the slots of what `getrawaddrman` printed. Tries and the last success are 0, since
    /// the text does not have them.
    pub fn of_raw(raw: &Raw, placer: &Placer<'_>, key: Keyed) -> Result<Columns, NoMemory> {
        let mut found = Found::new(key)?;
        found.put_rows(&raw.new, 0, false)?;
        found.put_rows(&raw.tried, NEW_SLOTS, true)?;
        found.columns(Groups::new(placer, key))
    }

    /// Writes the columns of texts.
    pub fn write_texts(&mut self) -> Result<(), NoMemory> {
        let mut texts = [const { Texts::new() }; 2];
        for row in &self.rows {
            texts[0].put(&row.peer.addr)?;
            texts[1].put(&row.source)?;
        }
        let [of_peers, of_sources] = texts;
        (self.columns[NAME], self.columns[FORM]) = (of_peers.names, of_peers.forms);
        (self.columns[SOURCE], self.columns[SOURCE_FORM]) = (of_sources.names, of_sources.forms);
        Ok(())
    }
}

/// Returns bucket and slot of this position among all slots, and whether it is of the tried table.
fn place_of(at: usize) -> (u16, u8, bool) {
    let is_tried = at >= NEW_SLOTS;
    let k = if is_tried { at - NEW_SLOTS } else { at };
    let slots = usize::from(SLOTS);
    ((k / slots) as u16, (k % slots) as u8, is_tried)
}

/// Records in the order of their first slots, each known by a key.
struct Found<K> {
    slots: Vec<i32>,
    rows: Vec<Row>,
    positions: HashMap<K, i32, Keyed>,
}

impl<K: Eq + Hash> Found<K> {
    fn new(key: Keyed) -> Result<Found<K>, NoMemory> {
        let mut slots = Vec::new();
        slots.try_reserve_exact(ALL_SLOTS)?;
        slots.resize(ALL_SLOTS, -1);
        Ok(Found {
            slots,
            rows: Vec::new(),
            positions: HashMap::with_hasher(key),
        })
    }

    /// Puts a record into a slot.
    fn put(&mut self, at: usize, key: K, row: impl FnOnce() -> Row) -> Result<(), NoMemory> {
        self.positions.try_reserve(1)?;
        self.slots[at] = match self.positions.entry(key) {
            Entry::Occupied(found) => *found.get(),
            Entry::Vacant(free) => {
                self.rows.try_reserve(1)?;
                self.rows.push(row());
                *free.insert(self.rows.len() as i32 - 1)
            }
        };
        Ok(())
    }

    /// Writes the columns of numbers, and the names of the groups.
    fn columns(self, mut groups: Groups<'_>) -> Result<Columns, NoMemory> {
        let mut columns = [const { Vec::new() }; COLUMNS];
        columns[SLOT] = bytes_of(&self.slots, i32::to_le_bytes)?;
        let rows = self.rows;
        columns[PORT] = column(&rows, |row| row.peer.port.to_le_bytes())?;
        columns[NETWORK] = column(&rows, |row| [network_of(&row.peer.addr)])?;
        columns[TABLE] = column(&rows, |row| [u8::from(row.is_tried)])?;
        columns[TIME] = column(&rows, |row| row.time.to_le_bytes())?;
        columns[SERVICES] = column(&rows, |row| row.services.to_le_bytes())?;
        columns[SUCCESS] = column(&rows, |row| row.success.to_le_bytes())?;
        columns[TRIES] = column(&rows, |row| row.tries.to_le_bytes())?;
        let (mut of_peers, mut of_sources) = (Vec::new(), Vec::new());
        of_peers.try_reserve_exact(4 * rows.len())?;
        of_sources.try_reserve_exact(4 * rows.len())?;
        for row in &rows {
            of_peers.extend_from_slice(&groups.number_of(&row.peer.addr)?.to_le_bytes());
            of_sources.extend_from_slice(&groups.number_of_source(&row.source)?.to_le_bytes());
        }
        (columns[GROUP], columns[SOURCE_GROUP]) = (of_peers, of_sources);
        columns[GROUP_NAMES] = groups.names;
        Ok(Columns { rows, columns })
    }
}

impl Found<Peer> {
    /// Puts the records of a table that begins at this position among all slots.
    fn put_rows(&mut self, rows: &RawRows, first: usize, is_tried: bool) -> Result<(), NoMemory> {
        for row in rows.items() {
            let place = usize::from(row.bucket) * usize::from(SLOTS) + usize::from(row.position);
            self.put(first + place, row.rec.peer, || Row {
                peer: row.rec.peer,
                source: row.rec.source,
                time: row.rec.time,
                services: row.rec.services,
                success: 0,
                tries: 0,
                is_tried,
            })?;
        }
        Ok(())
    }
}

/// Returns the number of the network by which an address counts: 0 if it is not routable.
fn network_of(addr: &NetAddr) -> u8 {
    if addr.is_routable() {
        addr.net().number()
    } else {
        0
    }
}

/// Returns the bytes of these values, one after another.
fn bytes_of<T: Copy, const N: usize>(
    values: &[T],
    bytes: impl Fn(T) -> [u8; N],
) -> Result<Vec<u8>, NoMemory> {
    let mut all = Vec::new();
    all.try_reserve_exact(N * values.len())?;
    for value in values {
        all.extend_from_slice(&bytes(*value));
    }
    Ok(all)
}

/// Returns the bytes of a value of each row, one after another.
fn column<const N: usize>(
    rows: &[Row],
    bytes: impl Fn(&Row) -> [u8; N],
) -> Result<Vec<u8>, NoMemory> {
    let mut all = Vec::new();
    all.try_reserve_exact(N * rows.len())?;
    for row in rows {
        all.extend_from_slice(&bytes(row));
    }
    Ok(all)
}
