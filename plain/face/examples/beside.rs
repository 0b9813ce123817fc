//! Makes random calls, and writes what they answer and the log of the same calls, so that the
//! program can be run beside them: its replies to `log` are those of `replies`.
//!
//!     cargo run --example beside -- COUNT FOLDER

use addrman::{AddrMan, Address, Chain, Entry, Form, Good, Networks, Peer, Pick, Record, encode};
use rand_xoshiro::Xoshiro256PlusPlus;
use rand_xoshiro::rand_core::{self, RngCore, SeedableRng};
use std::error::Error;
use std::fmt::Write;
use std::net::Ipv4Addr;
use std::path::Path;

/// The words of a call, as a log names them: a seed, and how many were drawn.
struct Counted {
    rng: Xoshiro256PlusPlus,
    seed: u64,
    count: usize,
}

impl Counted {
    fn new(seed: u64) -> Counted {
        let rng = Xoshiro256PlusPlus::seed_from_u64(seed);
        Counted {
            rng,
            seed,
            count: 0,
        }
    }

    fn words(&self) -> String {
        format!("@{}:{}", self.seed, self.count)
    }
}

impl RngCore for Counted {
    fn next_u32(&mut self) -> u32 {
        self.next_u64() as u32
    }

    fn next_u64(&mut self) -> u64 {
        self.count += 1;
        self.rng.next_u64()
    }

    fn fill_bytes(&mut self, bytes: &mut [u8]) {
        self.count += bytes.len() / 8;
        self.rng.fill_bytes(bytes);
    }

    fn try_fill_bytes(&mut self, bytes: &mut [u8]) -> Result<(), rand_core::Error> {
        self.fill_bytes(bytes);
        Ok(())
    }
}

/// The calls, their replies and their log.
struct Calls {
    peers: AddrMan,
    rng: Xoshiro256PlusPlus,
    now: u32,
    log: String,
    replies: String,
}

fn known(answer: bool) -> String {
    if answer { "ok" } else { "unknown" }.into()
}

fn one(found: &str, pick: &Pick) -> String {
    format!("{found} {} {}", pick.peer, pick.last_try.unwrap_or(0))
}

fn record(record: &Record) -> String {
    format!(
        "peer {} source {} time {} services {} success {} try {} attempts {} {}",
        record.peer,
        record.source,
        record.time,
        record.services,
        record.last_success.unwrap_or(0),
        record.last_try.unwrap_or(0),
        record.attempts,
        if record.is_tried { "tried" } else { "new" }
    )
}

impl Calls {
    fn below(&mut self, end: u32) -> u32 {
        self.rng.next_u32() % end
    }

    fn peer(&mut self) -> Peer {
        let number = self.below(4000);
        Peer::new(Ipv4Addr::from(0x1400_0101 + (number % 4000) * 65_521), 8333)
    }

    fn say(&mut self, line: String, reply: String) -> Result<(), std::fmt::Error> {
        writeln!(self.log, "{line}")?;
        writeln!(self.replies, "{reply}")
    }

    fn message(&mut self) -> Result<(), Box<dyn Error>> {
        let form = if self.below(2) == 0 {
            Form::Addr
        } else {
            Form::Addrv2
        };
        let count = self.below(20);
        let entries: Vec<_> = (0..count)
            .map(|_| {
                Entry::new(
                    self.peer(),
                    u64::from(self.below(16)),
                    self.now - self.below(9000),
                )
            })
            .collect();
        let payload = encode(form, &entries)?;
        let source: Address = Ipv4Addr::from(0x2a00_0101 + self.below(200) * 65_536).into();
        let mut words = Counted::new(self.rng.next_u64());
        let added = self
            .peers
            .take_message(form, &payload, source, self.now, &mut words)?;
        let name = if form == Form::Addr { "addr" } else { "addrv2" };
        let hex: String = payload.iter().map(|byte| format!("{byte:02x}")).collect();
        let line = format!("{name} {source} {hex} {}", words.words());
        self.say(line, format!("added {} of {}", added.accepted, added.total))?;
        Ok(())
    }

    fn mark(&mut self) -> Result<(), Box<dyn Error>> {
        let (peer, now) = (self.peer(), self.now);
        let (line, reply) = match self.below(5) {
            0 => (
                format!("attempt {peer} count"),
                known(self.peers.attempt(&peer, true, now)),
            ),
            1 => (
                format!("connected {peer}"),
                known(self.peers.connected(&peer, now)),
            ),
            2 => (
                format!("services {peer} 77"),
                known(self.peers.set_services(&peer, 77)),
            ),
            _ => {
                let reply = match self.peers.good(&peer, true, now) {
                    Good::Unknown => "unknown",
                    Good::Already => "already",
                    Good::Clash => "clash",
                    Good::Moved => "moved",
                };
                (format!("good {peer} test"), reply.into())
            }
        };
        self.say(line, reply)?;
        Ok(())
    }

    fn select(&mut self) -> Result<(), Box<dyn Error>> {
        let new_only = self.below(2) == 0;
        let mut words = Counted::new(self.rng.next_u64());
        let found = self
            .peers
            .select(new_only, Networks::ALL, self.now, &mut words)?;
        let kind = if new_only { "new" } else { "any" };
        let reply = found.map_or("nothing".into(), |pick| one("one", &pick));
        self.say(format!("select {kind} all {}", words.words()), reply)?;
        Ok(())
    }

    fn sample(&mut self) -> Result<(), Box<dyn Error>> {
        let mut words = Counted::new(self.rng.next_u64());
        let (nets, now) = (Networks::IPV4, self.now);
        let peers = self
            .peers
            .get_addr(Some(50), Some(23), nets, now, &mut words)?;
        let reply = peers
            .iter()
            .fold(format!("sample {}", peers.len()), |text, peer| {
                format!("{text} {peer}")
            });
        self.say(format!("sample 50 23 ipv4 {}", words.words()), reply)?;
        Ok(())
    }

    fn collisions(&mut self) -> Result<(), Box<dyn Error>> {
        let mut words = Counted::new(self.rng.next_u64());
        let found = self.peers.select_collision(&mut words);
        let word = Counted::new(words.seed).next_u64();
        let reply = found.map_or("none".into(), |pick| one("clash", &pick));
        self.say(format!("clash {word}"), reply)?;
        let ends = self.peers.resolve_collisions(self.now);
        let (erased, moved, kept) = (ends.erased, ends.moved, ends.kept);
        let reply = format!("resolved erased {erased} moved {moved} kept {kept}");
        self.say("resolve".into(), reply)?;
        Ok(())
    }

    fn reads(&mut self) -> Result<(), Box<dyn Error>> {
        let peer = self.peer();
        let reply = self
            .peers
            .find(&peer)
            .map_or("unknown".into(), |found| record(&found));
        self.say(format!("find {peer}"), reply)?;
        let size = self.peers.size();
        let (new, tried, clashes) = (size.new_count, size.tried_count, size.clashes);
        let reply = format!("size new {new} tried {tried} clashes {clashes}");
        self.say("size".into(), reply)?;
        Ok(())
    }

    fn call(&mut self) -> Result<(), Box<dyn Error>> {
        match self.below(16) {
            0..=4 => self.message(),
            5..=10 => self.mark(),
            11..=12 => self.select(),
            13 => self.sample(),
            14 => self.collisions(),
            _ => {
                self.now += self.below(900);
                self.say(format!("now {}", self.now), format!("now {}", self.now))?;
                self.reads()
            }
        }
    }
}

fn main() -> Result<(), Box<dyn Error>> {
    let mut words = std::env::args().skip(1);
    let count: u32 = words.next().ok_or("the count is missing")?.parse()?;
    let folder = words.next().ok_or("the folder is missing")?;
    let mut calls = Calls {
        peers: AddrMan::with_key([0; 32], None)?,
        rng: Xoshiro256PlusPlus::seed_from_u64(1),
        now: 1_700_000_000,
        log: "now 1700000000\n".into(),
        replies: "now 1700000000\n".into(),
    };
    for _ in 0..count {
        calls.call()?;
    }
    calls.peers.save(&folder, Chain::Main)?;
    calls.say("save".into(), "saved".into())?;
    let folder = Path::new(&folder);
    std::fs::write(folder.join("log"), calls.log)?;
    std::fs::write(folder.join("replies"), calls.replies)?;
    Ok(())
}
