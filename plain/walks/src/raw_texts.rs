//! Texts of the slots and records of tables, printed and read.

use crate::entries::{Hasher, Tabled};
use net_addr::{Entry, Net, NetAddr, Peer};
use node_json::raw_text;
use peer_rec::Rec;
use placing::Placer;
use plain_rand_core::{Rng, SeedableRng};
use plain_rand_xoshiro::Xoshiro256PlusPlus;
use plain_std::alloc::Global;
use raw_read::{Field, Raw, RawFault, RawRow, RawTable, read_raw};

const NOW: u32 = 1_700_000_000;

/// An address of one of the networks.
fn address(random: &mut Xoshiro256PlusPlus) -> NetAddr {
    let (word, kind) = (random.next_u64(), random.next_u64());
    let bytes = [random.next_u64(); 4].map(u64::to_be_bytes).concat();
    let cjdns = [&[0xfc], &bytes[..15]].concat();
    let found = match kind % 6 {
        0 => NetAddr::of(Net::Ipv6, &[&[0x20, 0x01, 0x04], &bytes[..13]].concat()),
        1 => NetAddr::of(Net::Onion, &bytes),
        2 => NetAddr::of(Net::I2p, &bytes),
        3 => NetAddr::of(Net::Cjdns, &cjdns),
        4 => NetAddr::of(Net::Ipv6, &cjdns),
        _ => None,
    };
    found.unwrap_or(NetAddr::ipv4([
        word as u8 % 200 + 20,
        1,
        2,
        (word >> 8) as u8,
    ]))
}

/// Fills tables with records of all networks, some of them tried.
fn fill(tables: &mut Tabled, random: &mut Xoshiro256PlusPlus) {
    for _ in 0..400 {
        let addr = address(random);
        let (source, word) = (address(random), random.next_u64());
        let peer = Peer {
            addr,
            port: word as u16,
        };
        let entry = Entry {
            peer,
            services: random.next_u64(),
            time: NOW - (word >> 40) as u32 % 1000,
        };
        tables.add(&entry, &source, 0, 0, NOW).unwrap();
        if word % 5 == 0 {
            tables.good(&peer, false, NOW);
        }
    }
}

/// Whether a row is that of a record in a slot.
fn is_row(row: &RawRow, bucket: u16, position: u8, rec: &Rec) -> bool {
    let read = &row.rec;
    (row.bucket, row.position) == (bucket, position)
        && (read.peer, read.source) == (rec.peer, rec.source)
        && (read.time, read.services) == (rec.time, rec.services)
        && (read.last_success, read.attempts) == (0, 0)
}

/// Whether the rows are the occupied slots, in their order.
fn are_rows<'t>(
    rows: &[RawRow],
    buckets: u16,
    rec_at: impl Fn(u16, u8) -> Option<&'t Rec>,
) -> bool {
    let mut rest = rows.iter();
    for bucket in 0..buckets {
        for position in 0..64 {
            if let Some(rec) = rec_at(bucket, position) {
                match rest.next() {
                    Some(row) if is_row(row, bucket, position, rec) => {}
                    _ => return false,
                }
            }
        }
    }
    rest.next().is_none()
}

/// Whether what is printed of random tables is read as their slots and records.
pub(crate) fn is_read_back(alloc: Global, seed: u64) -> bool {
    let mut random = Xoshiro256PlusPlus::seed_from_u64(seed);
    let placer = Placer::make([seed as u8; 32], None);
    let mut tables = Tabled::open(alloc, placer, Hasher::default()).unwrap();
    fill(&mut tables, &mut random);
    let text = raw_text(alloc, &tables).unwrap();
    let (new, tried) = match read_raw(alloc, text.as_slice()) { Ok(Raw { new, tried }) => (new, tried), _ => {
        return false;
    } };
    !tried.items().is_empty()
        && are_rows(new.items(), 1024, |bucket, slot| {
            tables.new_rec_at(bucket, slot)
        })
        && are_rows(tried.items(), 256, |bucket, slot| {
            tables.tried_rec_at(bucket, slot)
        })
}

/// The texts that have another fault than the one that they should have.
pub(crate) fn wrong_faults(alloc: Global) -> String {
    let (new, tried) = (RawTable::New, RawTable::Tried);
    let slot = |table, index| RawFault::Slot { table, index };
    let row = |table, bucket, position, field| RawFault::Row {
        table,
        bucket,
        position,
        field,
    };
    let start = r#""address":"1.2.3.4","port":1,"services":0,"time":0"#;
    let good = format!(r#"{{{start},"source":"::1"}}"#);
    let cases = [
        ("[1".into(), RawFault::Json),
        ("[]".into(), RawFault::Form),
        (r#"{"new":{}}"#.into(), RawFault::Form),
        (r#"{"new":{},"tried":[]}"#.into(), RawFault::Form),
        (
            r#"{"tried":{"256/0":0},"new":{"0/64":0}}"#.into(),
            slot(new, 0),
        ),
        (r#"{"tried":{"256/0":0},"new":{}}"#.into(), slot(tried, 0)),
        (
            format!(r#"{{"new":{{"1/1":{good},"1/1":{good}}},"tried":{{}}}}"#),
            slot(new, 1),
        ),
        (
            format!(r#"{{"new":{{"1/1":{good},"1/01":{good}}},"tried":{{}}}}"#),
            slot(new, 1),
        ),
        (
            format!(r#"{{"new":{{"2/0":{good},"1/9":{good}}},"tried":{{}}}}"#),
            slot(new, 1),
        ),
        (
            r#"{"new":{"3/4":[]},"tried":{}}"#.into(),
            row(new, 3, 4, Field::Address),
        ),
        (
            r#"{"new":{"3/4":{"address":"1.2.3"}},"tried":{}}"#.into(),
            row(new, 3, 4, Field::Address),
        ),
        (
            good.replace("\"port\":1", "\"port\":65536"),
            row(tried, 255, 63, Field::Port),
        ),
        (
            good.replace("\"port\":1", "\"port\":\"1\""),
            row(tried, 255, 63, Field::Port),
        ),
        (
            good.replace("services\":0", "services\":0.0"),
            row(tried, 255, 63, Field::Services),
        ),
        (
            good.replace("time\":0", "time\":4294967296"),
            row(tried, 255, 63, Field::Time),
        ),
        (
            good.replace("::1", "[::1]"),
            row(tried, 255, 63, Field::Source),
        ),
    ];
    let mut wrong = String::new();
    for (text, fault) in cases {
        let whole = if text.starts_with(r#"{"address"#) {
            format!(r#"{{"new":{{}},"tried":{{"255/63":{text}}}}}"#)
        } else {
            text
        };
        match read_raw(alloc, whole.as_bytes()) {
            Err(found) if found == fault => {}
            found => wrong += &format!("{whole}: {:?}\n", found.err()),
        }
    }
    wrong
}
