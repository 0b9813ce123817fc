//! The limit on the addresses that a connection may send.

use std::collections::HashMap;

use crate::address::Address;
use crate::message::{put_compact_size, put_entry, read_message};
use crate::text::{payload, put_hex, put_number, small, Words};

const TENTHS_OF_A_TOKEN: u32 = 10;
const FULL: u32 = 10_000;

struct Connection {
    address: Address,
    is_limited: bool,
    refilled: u32,
    tenths: u32,
    is_asked: bool,
    processed: u32,
    dropped: u32,
}

impl Connection {
    fn refill(&mut self, now: u32) {
        if self.tenths < FULL {
            self.tenths = self.tenths.saturating_add(now.saturating_sub(self.refilled)).min(FULL);
        }
        self.refilled = now;
    }

    /// Takes the token of the next entry, if there is one; whether it is admitted.
    fn admits(&mut self) -> bool {
        let is_paid = self.tenths >= TENTHS_OF_A_TOKEN;
        if is_paid {
            self.tenths -= TENTHS_OF_A_TOKEN;
        }
        let is_admitted = is_paid || !self.is_limited;
        let count = if is_admitted { &mut self.processed } else { &mut self.dropped };
        *count = count.saturating_add(1);
        is_admitted
    }
}

#[derive(Default)]
pub struct Limit {
    now: u32,
    open: HashMap<u32, Connection>,
}

fn comment(out: &mut Vec<u8>, keyword: &str, number: u32, answer: &str) {
    out.extend_from_slice(b"# ");
    out.extend_from_slice(keyword.as_bytes());
    out.push(b' ');
    put_number(number, out);
    out.extend_from_slice(answer.as_bytes());
}

impl Limit {
    /// Appends the output line of a line, or answers `None` if it is malformed.
    pub fn output(&mut self, line: &[u8], out: &mut Vec<u8>) -> Option<()> {
        let mut fields = line.split(|&byte| byte == b' ');
        let mut field = || fields.next();
        match field()? {
            b"now" => {
                self.now = small(field()?)?;
                out.extend_from_slice(line);
            }
            b"open" => {
                let (number, address, mode) = (small(field()?)?, Address::parse(field()?)?, field()?);
                let is_limited = mode == b"limited" || (mode != b"unlimited").then_some(false)?;
                self.open(number, address, is_limited, out);
            }
            b"close" => {
                let number = small(field()?)?;
                let is_open = self.open.remove(&number).is_some();
                comment(out, "close", number, if is_open { "" } else { " unknown" });
            }
            b"getaddr" => {
                let number = small(field()?)?;
                let answer = match self.open.get_mut(&number) {
                    None => " unknown",
                    Some(connection) if connection.is_asked => " already",
                    Some(connection) => {
                        connection.is_asked = true;
                        connection.tenths += FULL;
                        ""
                    }
                };
                comment(out, "getaddr", number, answer);
            }
            keyword @ (b"from" | b"from2") => {
                let (number, bytes, words) = (small(field()?)?, payload(field()?)?, Words::parse(field()?)?);
                self.message(number, &bytes, keyword == b"from2", words, out);
            }
            b"stat" => {
                let number = small(field()?)?;
                match self.open.get(&number) {
                    None => comment(out, "stat", number, " unknown"),
                    Some(connection) => {
                        comment(out, "stat", number, " processed ");
                        put_number(connection.processed, out);
                        out.extend_from_slice(b" limited ");
                        put_number(connection.dropped, out);
                        out.extend_from_slice(b" tenths ");
                        put_number(connection.tenths, out);
                    }
                }
            }
            _ => {
                out.extend_from_slice(line);
                out.push(b'\n');
                return Some(());
            }
        }
        out.push(b'\n');
        match field() {
            None => Some(()),
            Some(_) => None,
        }
    }

    fn open(&mut self, number: u32, address: Address, is_limited: bool, out: &mut Vec<u8>) {
        let mut answer = " already";
        self.open.entry(number).or_insert_with(|| {
            answer = "";
            let (refilled, tenths) = (self.now, TENTHS_OF_A_TOKEN);
            Connection { address, is_limited, refilled, tenths, is_asked: false, processed: 0, dropped: 0 }
        });
        comment(out, "open", number, answer);
    }

    fn message(&mut self, number: u32, bytes: &[u8], second: bool, words: Words, out: &mut Vec<u8>) {
        let Some(connection) = self.open.get_mut(&number) else {
            return comment(out, "from", number, " unknown");
        };
        let entries = match read_message(bytes, second) {
            Err(fault) => {
                comment(out, "from", number, " refused ");
                return out.extend_from_slice(fault.as_bytes());
            }
            Ok(entries) => entries,
        };
        if words.left() < entries.len() {
            comment(out, "from", number, " short ");
            put_number(entries.len(), out);
            out.push(b' ');
            return put_number(words.left(), out);
        }
        connection.refill(self.now);
        let (mut passed, mut passed_words, mut count) = (Vec::new(), Vec::new(), 0);
        for (entry, word) in entries.iter().zip(words) {
            if !connection.admits() {
                continue;
            }
            if let Some(address) = entry.address.filter(|address| !matches!(address, Address::Internal(_))) {
                put_entry(entry.time, entry.services, &address, entry.port, &mut passed);
                if count > 0 {
                    passed_words.push(b',');
                }
                put_number(word, &mut passed_words);
                count += 1;
            }
        }
        if count == 0 {
            return comment(out, "from", number, " none");
        }
        out.extend_from_slice(b"addrv2 ");
        connection.address.put(out);
        out.push(b' ');
        let mut head = Vec::with_capacity(3);
        put_compact_size(count, &mut head);
        put_hex(&head, out);
        put_hex(&passed, out);
        out.push(b' ');
        out.extend_from_slice(&passed_words);
    }
}
