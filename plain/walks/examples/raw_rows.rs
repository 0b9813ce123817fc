//! Prints what `read_raw` reads of texts, a line for each. On standard input each text comes after
//! a line with its length in bytes. `tools/raw_texts` compares the lines with those of reference/.

use net_addr::NetAddr;
use plain_std::alloc::Global;
use raw_read::{Field, RawFault, RawRow, RawTable, read_raw};
use std::io::Read;

fn table_name(table: RawTable) -> &'static str {
    match table {
        RawTable::New => "new",
        RawTable::Tried => "tried",
    }
}

fn fault_line(fault: RawFault) -> String {
    match fault {
        RawFault::Json => "json".into(),
        RawFault::Form => "form".into(),
        RawFault::Slot { table, index } => format!("{} member {index}: slot", table_name(table)),
        RawFault::Row {
            table,
            bucket,
            position,
            field,
        } => {
            let field = match field {
                Field::Address => "address",
                Field::Port => "port",
                Field::Services => "services",
                Field::Time => "time",
                Field::Source => "source",
            };
            format!("{}/{bucket}/{position}: {field}", table_name(table))
        }
        RawFault::TooLarge => "too-large".into(),
        RawFault::Memory => "out of memory".into(),
    }
}

fn address(addr: &NetAddr) -> String {
    let digits: Vec<String> = addr.bytes().iter().map(|b| format!("{b:02x}")).collect();
    format!("{:?} {}", addr.net(), digits.concat()).to_lowercase()
}

fn row_line(row: &RawRow) -> String {
    let rec = &row.rec;
    format!(
        "{}/{} {} {} {} {} {};",
        row.bucket,
        row.position,
        address(&rec.peer.addr),
        rec.peer.port,
        address(&rec.source),
        rec.time,
        rec.services,
    )
}

fn line(text: &[u8]) -> String {
    match read_raw(Global, text) {
        Err(fault) => fault_line(fault),
        Ok(raw) => {
            let new = raw.new.items().iter().map(row_line);
            let tried = raw.tried.items().iter().map(row_line);
            format!("{}|{}", new.collect::<String>(), tried.collect::<String>())
        }
    }
}

fn main() {
    let mut given = Vec::new();
    std::io::stdin().read_to_end(&mut given).unwrap();
    let mut rest = given.as_slice();
    while let Some(end) = rest.iter().position(|byte| *byte == b'\n') {
        let length = std::str::from_utf8(&rest[..end]).unwrap().parse().unwrap();
        let (text, later) = rest[end + 1..].split_at(length);
        println!("{}", line(text));
        rest = later;
    }
}
