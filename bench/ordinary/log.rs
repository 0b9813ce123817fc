//! A log: its lines and their replies.

use std::io::{BufRead, Write};

use crate::address::{Address, Class, Peer, CLASSES};
use crate::message::read_message;
use crate::peers::{file_of, replace};
use crate::tables::{Filter, Picked, Record, Tables};
use crate::text::{number, payload, put_number, small, Words};
use crate::Fault;

pub struct Log {
    pub tables: Tables,
    now: u32,
}

fn put(out: &mut Vec<u8>, parts: &[(&str, u64)]) {
    for &(text, value) in parts {
        out.extend_from_slice(text.as_bytes());
        put_number(value, out);
    }
}

fn put_record(record: &Record, out: &mut Vec<u8>) {
    out.extend_from_slice(b"peer ");
    record.peer.put(out);
    out.extend_from_slice(b" source ");
    record.source.put(out);
    let marks = [
        (" time ", record.time.into()),
        (" services ", record.services),
        (" success ", record.success.into()),
        (" try ", record.last_try.into()),
        (" attempts ", record.failures.into()),
    ];
    put(out, &marks);
    if record.is_tried {
        return out.extend_from_slice(b" tried");
    }
    for (index, &bucket) in record.buckets.iter().enumerate() {
        out.extend_from_slice(if index == 0 { b" new " } else { b"," });
        put_number(bucket, out);
    }
}

/// Parses `all` or names with commas between them.
fn filter(text: &[u8], most: usize) -> Option<Filter<Vec<Class>>> {
    if text == b"all" {
        return Some(Filter::All);
    }
    let class_of = |name: &[u8]| CLASSES[..most].iter().find(|(other, _)| *other == name).map(|&(_, class)| class);
    text.split(|&byte| byte == b',').map(class_of).collect::<Option<Vec<_>>>().map(Filter::Only)
}

fn one_of(text: &[u8], yes: &[u8], no: &[u8]) -> Option<bool> {
    if text == yes {
        Some(true)
    } else {
        (text == no).then_some(false)
    }
}

impl Log {
    pub fn new(tables: Tables) -> Log {
        Log { tables, now: 0 }
    }

    /// Appends the reply to a line and a line feed, or answers `None` if the line is malformed.
    pub fn reply(&mut self, line: &[u8], out: &mut Vec<u8>) -> Option<()> {
        let mut fields = line.split(|&byte| byte == b' ');
        let mut field = || fields.next();
        match field()? {
            b"now" => {
                self.now = small(field()?)?;
                put(out, &[("now ", self.now.into())]);
            }
            keyword @ (b"addr" | b"addrv2") => {
                let (source, bytes, words) =
                    (Address::parse(field()?)?, payload(field()?)?, Words::parse(field()?)?);
                self.message(source, &bytes, keyword == b"addrv2", words, out);
            }
            b"find" => match self.tables.find(&Peer::parse(field()?)?) {
                Some(record) => put_record(record, out),
                None => out.extend_from_slice(b"unknown"),
            },
            b"good" => {
                let (peer, test) = (Peer::parse(field()?)?, one_of(field()?, b"test", b"force")?);
                out.extend_from_slice(self.tables.good(&peer, test, self.now).as_bytes());
            }
            b"attempt" => {
                let (peer, counts) = (Peer::parse(field()?)?, one_of(field()?, b"count", b"nocount")?);
                known(self.tables.attempt(&peer, counts, self.now), out);
            }
            b"connected" => known(self.tables.connected(&Peer::parse(field()?)?, self.now), out),
            b"services" => {
                let (peer, services) = (Peer::parse(field()?)?, number(field()?, u64::MAX)?);
                let record = self.tables.find_mut(&peer);
                known(record.map(|record| record.services = services).is_some(), out);
            }
            b"size" => {
                let (new, tried) = self.tables.counts();
                let clashes = self.tables.collisions.len();
                put(out, &[("size new ", new as u64), (" tried ", tried as u64), (" clashes ", clashes as u64)]);
            }
            b"select" => {
                let only_new = one_of(field()?, b"new", b"any")?;
                let (networks, mut words) = (filter(field()?, 6)?, Words::parse(field()?)?);
                match self.tables.select(only_new, &networks, &mut words, self.now) {
                    Picked::One(record) => {
                        out.extend_from_slice(b"one ");
                        record.peer.put(out);
                        put(out, &[(" ", record.last_try.into())]);
                    }
                    Picked::Nothing => out.extend_from_slice(b"nothing"),
                    Picked::Exhausted => out.extend_from_slice(b"exhausted"),
                }
            }
            b"sample" => {
                let (most, percent) = (small(field()?)?, number(field()?, 100)? as u32);
                let (classes, words) = (filter(field()?, 7)?, Words::parse(field()?)?);
                self.sample(most, percent, &classes, words, out);
            }
            b"resolve" => {
                let (erased, moved, kept) = self.tables.resolve(self.now);
                let counts =
                    [("resolved erased ", erased.into()), (" moved ", moved.into()), (" kept ", kept.into())];
                put(out, &counts);
            }
            b"clash" => match self.tables.clash(number(field()?, u64::MAX)?) {
                None => out.extend_from_slice(b"none"),
                Some(record) => {
                    out.extend_from_slice(b"clash ");
                    record.peer.put(out);
                    put(out, &[(" ", record.last_try.into())]);
                }
            },
            b"dump" => {
                let records = self.tables.by_number();
                for (_, record) in &records {
                    put_record(record, out);
                    out.push(b'\n');
                }
                put(out, &[("end ", records.len() as u64)]);
            }
            b"save" => {
                let saved = replace("peers.tmp", "peers.dat", &file_of(&self.tables)).is_ok();
                out.extend_from_slice(if saved { b"saved" } else { b"not saved" });
            }
            _ => return None,
        }
        out.push(b'\n');
        match field() {
            None => Some(()),
            Some(_) => None,
        }
    }

    fn message(&mut self, source: Address, bytes: &[u8], second: bool, words: Words, out: &mut Vec<u8>) {
        match read_message(bytes, second) {
            Err(fault) => {
                out.extend_from_slice(b"refused ");
                out.extend_from_slice(fault.as_bytes());
            }
            Ok(entries) if words.left() < entries.len() => {
                put(out, &[("short ", entries.len() as u64), (" ", words.left() as u64)]);
            }
            Ok(entries) => {
                let (tables, now) = (&mut self.tables, self.now);
                let added = entries.iter().zip(words).filter(|(entry, word)| tables.add(entry, &source, *word, now)).count();
                put(out, &[("added ", added as u64), (" of ", entries.len() as u64)]);
            }
        }
    }

    fn sample(&mut self, most: u32, percent: u32, classes: &Filter<Vec<Class>>, mut words: Words, out: &mut Vec<u8>) {
        if words.left() < self.tables.len() {
            return put(out, &[("short ", self.tables.len() as u64), (" ", words.left() as u64)]);
        }
        let peers = self.tables.sample(most, percent, classes, &mut words, self.now);
        put(out, &[("sample ", peers.len() as u64)]);
        for peer in peers {
            out.push(b' ');
            peer.put(out);
        }
    }
}

fn known(is_known: bool, out: &mut Vec<u8>) {
    out.extend_from_slice(if is_known { b"ok" } else { b"unknown" });
}

/// Hands each line of a log to `answer`, which appends what is written before the next line is taken.
pub fn each_line(
    log: &mut impl BufRead,
    out: &mut impl Write,
    mut answer: impl FnMut(&[u8], &mut Vec<u8>) -> Option<()>,
) -> Result<(), Fault> {
    let (mut line, mut reply) = (Vec::new(), Vec::new());
    loop {
        line.clear();
        if log.read_until(b'\n', &mut line)? == 0 {
            return Ok(());
        }
        if line.last() == Some(&b'\n') {
            line.pop();
        }
        reply.clear();
        answer(&line, &mut reply).ok_or(Fault::Refused)?;
        if !reply.is_empty() {
            out.write_all(&reply)?;
        }
    }
}
