//! The file peers.dat: read in the formats 1 to 4, written in format 4, and listed.

use std::fs::{File, OpenOptions};
use std::io::Write;
use std::os::unix::fs::OpenOptionsExt;

use crate::address::{Address, Peer};
use crate::message::{put_address, put_compact_size, Reader};
use crate::places::{double_sha256, Places, NEW_BUCKETS};
use crate::tables::{Record, Tables};
use crate::text::{put_hex, put_number};
use crate::Fault;

const MAX_FILE: u64 = 33_554_432;
const MAIN: [u8; 4] = [0xf9, 0xbe, 0xb4, 0xd9];
const FLIPPED_BIT: u32 = 1 << 30;
const RECORD_FORMAT: u32 = 0x2000_0000;
const RECORD_START: [u8; 4] = [0x60, 0x5b, 0x03, 0x20];

/// What a file has.
pub struct PeersFile {
    pub key: [u8; 32],
    new: Vec<Record>,
    tried: Vec<Record>,
    bucket_count: u32,
    pairs: Vec<(u32, u32)>,
    sum: [u8; 32],
}

/// The bytes of a file, none if there is no such file.
pub fn load(name: &str, most: u64) -> Result<Option<Vec<u8>>, Fault> {
    match std::fs::metadata(name) {
        Err(error) if error.kind() == std::io::ErrorKind::NotFound => Ok(None),
        Err(error) => Err(error.into()),
        Ok(metadata) if metadata.len() > most => Err(Fault::Refused),
        Ok(_) => Ok(Some(std::fs::read(name)?)),
    }
}

fn read_address(reader: &mut Reader<'_>, is_old: bool) -> Result<Address, &'static str> {
    if is_old {
        return Ok(Address::from_sixteen(reader.array()?));
    }
    Ok(reader.address()?.unwrap_or(Address::Ipv6([0; 16])))
}

fn read_record(reader: &mut Reader<'_>, is_old: bool) -> Result<Record, &'static str> {
    if reader.u32()? & 0xfff8_0000 != if is_old { 0 } else { RECORD_FORMAT } {
        return Err("record");
    }
    let time = reader.u32()?;
    let services = if is_old { reader.u64()? } else { reader.compact_size()? };
    let peer = Peer { address: read_address(reader, is_old)?, port: reader.port()? };
    let source = read_address(reader, is_old)?;
    let success = u32::try_from(reader.u64()?).map_err(|_| "time")?;
    let failures = u32::try_from(reader.i32()?).map_err(|_| "attempts")?;
    Ok(Record { success, failures, ..Record::new(peer, source, time, services) })
}

impl PeersFile {
    /// Reads the file of the current folder, none if there is no such file.
    pub fn load() -> Result<Option<PeersFile>, Fault> {
        let Some(bytes) = load("peers.dat", MAX_FILE)? else {
            return Ok(None);
        };
        PeersFile::read(&bytes).map(Some).map_err(|_| Fault::Refused)
    }

    fn read(bytes: &[u8]) -> Result<PeersFile, &'static str> {
        let (data, sum) = bytes.split_at_checked(bytes.len().wrapping_sub(32)).ok_or("truncated")?;
        let data_after = data.strip_prefix(&MAIN).ok_or("bad-magic")?;
        if double_sha256(&[data]) != sum {
            return Err("bad-sum");
        }
        let mut reader = Reader(data_after);
        let format = reader.byte()?;
        if !(32..=36).contains(&reader.byte()?) {
            return Err("compat");
        }
        if !(1..=4).contains(&format) {
            return Err("version");
        }
        let key = reader.array()?;
        let mut count = |most: u32| match u32::try_from(reader.i32()?) {
            Ok(count) if count <= most => Ok(count),
            _ => Err("count"),
        };
        let (new_count, tried_count) = (count(65_536)?, count(16_384)?);
        let bucket_count = reader.u32()? ^ FLIPPED_BIT;
        if bucket_count > 65_536 {
            return Err("buckets");
        }
        let is_old = format < 3;
        let new = (0..new_count).map(|_| read_record(&mut reader, is_old)).collect::<Result<Vec<_>, _>>()?;
        let tried = (0..tried_count).map(|_| read_record(&mut reader, is_old)).collect::<Result<Vec<_>, _>>()?;
        let mut pairs = Vec::with_capacity(new.len());
        for bucket in 0..bucket_count {
            for _ in 0..reader.i32()?.max(0) {
                let index = reader.u32()?;
                if index < new_count {
                    pairs.push((bucket, index));
                }
            }
        }
        let sum = if format == 1 { [0; 32] } else { reader.array()? };
        if !reader.0.is_empty() {
            return Err("trailing");
        }
        Ok(PeersFile { key, new, tried, bucket_count, pairs, sum })
    }

    /// The tables of the file.
    pub fn restore(self, places: Places) -> Result<Tables, Fault> {
        let same = self.bucket_count == NEW_BUCKETS as u32 && self.sum == asmap_sum(&places);
        let mut tables = Tables::new(places);
        if !tables.restore(self.new, self.tried, &self.pairs, same) {
            return Err(Fault::Refused);
        }
        Ok(tables)
    }

    /// Lists the file.
    pub fn show(&self, out: &mut impl Write) -> std::io::Result<()> {
        let mut line = Vec::with_capacity(256);
        for (text, count) in [
            ("file new ", self.new.len()),
            (" tried ", self.tried.len()),
            (" buckets ", self.bucket_count as usize),
        ] {
            line.extend_from_slice(text.as_bytes());
            put_number(count, &mut line);
        }
        line.extend_from_slice(b" key ");
        put_hex(&self.key, &mut line);
        line.extend_from_slice(b" sum ");
        put_hex(&self.sum, &mut line);
        line.push(b'\n');
        out.write_all(&line)?;
        for (table, records) in [("new ", &self.new), ("tried ", &self.tried)] {
            for (index, record) in records.iter().enumerate() {
                line.clear();
                line.extend_from_slice(table.as_bytes());
                put_number(index, &mut line);
                line.push(b' ');
                record.peer.put(&mut line);
                line.extend_from_slice(b" source ");
                record.source.put(&mut line);
                line.extend_from_slice(b" time ");
                put_number(record.time, &mut line);
                line.extend_from_slice(b" services ");
                put_number(record.services, &mut line);
                line.extend_from_slice(b" success ");
                put_number(record.success, &mut line);
                line.extend_from_slice(b" attempts ");
                put_number(record.failures, &mut line);
                line.push(b'\n');
                out.write_all(&line)?;
            }
        }
        Ok(())
    }
}

fn asmap_sum(places: &Places) -> [u8; 32] {
    places.asmap.as_ref().map_or([0; 32], |asmap| double_sha256(&[&asmap.0]))
}

fn put_record(record: &Record, out: &mut Vec<u8>) {
    out.extend_from_slice(&RECORD_START);
    out.extend_from_slice(&record.time.to_le_bytes());
    put_compact_size(record.services, out);
    put_address(&record.peer.address, out);
    out.extend_from_slice(&record.peer.port.to_be_bytes());
    put_address(&record.source, out);
    out.extend_from_slice(&u64::from(record.success).to_le_bytes());
    out.extend_from_slice(&record.failures.to_le_bytes());
}

/// The file of the tables.
pub fn file_of(tables: &Tables) -> Vec<u8> {
    let records = tables.by_number();
    let (new, tried) = tables.counts();
    let mut out = Vec::with_capacity(4096 + 80 * records.len());
    out.extend_from_slice(&MAIN);
    out.extend_from_slice(&[4, 36]);
    out.extend_from_slice(&tables.places.key);
    for count in [new as u32, tried as u32, NEW_BUCKETS as u32 ^ FLIPPED_BIT] {
        out.extend_from_slice(&count.to_le_bytes());
    }
    let most = records.iter().map(|(id, _)| id + 1).max().unwrap_or(0);
    let mut index_of = vec![0u32; most];
    let new_records = records.iter().filter(|(_, record)| !record.is_tried);
    for (index, &(id, record)) in new_records.enumerate() {
        index_of[id] = index as u32;
        put_record(record, &mut out);
    }
    for (_, record) in records.iter().filter(|(_, record)| record.is_tried) {
        put_record(record, &mut out);
    }
    for bucket in 0..NEW_BUCKETS {
        let at = out.len();
        out.extend_from_slice(&[0; 4]);
        let mut count = 0u32;
        for id in tables.bucket(bucket) {
            out.extend_from_slice(&index_of[id].to_le_bytes());
            count += 1;
        }
        out[at..at + 4].copy_from_slice(&count.to_le_bytes());
    }
    out.extend_from_slice(&asmap_sum(&tables.places));
    let sum = double_sha256(&[&out]);
    out.extend_from_slice(&sum);
    out
}

/// Writes a file beside its place, and puts it there once it is safe.
pub fn replace(temporary: &str, name: &str, bytes: &[u8]) -> std::io::Result<()> {
    let folder = File::open(".")?;
    folder.try_lock().map_err(|_| std::io::ErrorKind::WouldBlock)?;
    let _ = std::fs::remove_file(temporary);
    let mut file = OpenOptions::new().write(true).create_new(true).mode(0o600).open(temporary)?;
    file.write_all(bytes)?;
    file.sync_all()?;
    std::fs::rename(temporary, name)?;
    folder.sync_all()
}
