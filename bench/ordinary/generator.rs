//! Generated logs.

use rand_xoshiro::rand_core::{RngCore, SeedableRng};
use rand_xoshiro::Xoshiro256PlusPlus;

use crate::address::{Address, Peer};
use crate::text::{put_hex, put_number};

const START_TIME: u64 = 1_700_000_000;
const PEERS: u64 = 16_384;
const DAY: u64 = 86_400;
const WORD: u64 = 1 << 32;

pub struct Generator {
    words: Xoshiro256PlusPlus,
    time: u64,
    is_begun: bool,
}

impl Generator {
    pub fn new(start: u64) -> Generator {
        Generator { words: Xoshiro256PlusPlus::seed_from_u64(start), time: START_TIME, is_begun: false }
    }

    fn draw(&mut self, below: u64) -> u64 {
        self.words.next_u64() % below
    }

    fn peer(&mut self) -> Peer {
        let number = self.draw(PEERS);
        Peer { address: Address::Ipv4([20 + (number % 64) as u8, (number / 64) as u8, 1, 1]), port: 8333 }
    }

    fn put_with_peer(&mut self, keyword: &str, mode: &str, out: &mut Vec<u8>) {
        out.extend_from_slice(keyword.as_bytes());
        self.peer().put(out);
        out.extend_from_slice(mode.as_bytes());
    }

    fn put_with_draw(&mut self, keyword: &str, out: &mut Vec<u8>) {
        out.extend_from_slice(keyword.as_bytes());
        put_number(self.draw(WORD), out);
    }

    fn put_message(&mut self, out: &mut Vec<u8>) {
        out.extend_from_slice(b"addr ");
        self.peer().address.put(out);
        out.push(b' ');
        let count = 1 + self.draw(4);
        put_hex(&[count as u8], out);
        for _ in 0..count {
            let time = (self.time - self.draw(DAY)) as u32;
            let peer = self.peer();
            let mut entry = [0; 30];
            entry[..4].copy_from_slice(&time.to_le_bytes());
            entry[4] = 1;
            entry[12..28].copy_from_slice(&peer.address.to_sixteen().expect("an IPv4 address"));
            entry[28..].copy_from_slice(&peer.port.to_be_bytes());
            put_hex(&entry, out);
        }
        self.put_with_draw(" @", out);
        out.push(b':');
        put_number(count, out);
    }

    /// Appends the next line with its line feed.
    pub fn put_line(&mut self, out: &mut Vec<u8>) {
        let kind = if self.is_begun { self.draw(16) } else { 16 };
        self.is_begun = true;
        match kind {
            0 | 1 => {
                self.time += 1 + self.draw(600);
                out.extend_from_slice(b"now ");
                put_number(self.time, out);
            }
            2..=8 => self.put_message(out),
            9 | 10 => self.put_with_peer("good ", " test", out),
            11 => self.put_with_peer("attempt ", " count", out),
            12 => self.put_with_peer("connected ", "", out),
            13 => {
                self.put_with_draw("select any all @", out);
                out.extend_from_slice(b":300");
            }
            14 => self.put_with_draw("clash ", out),
            15 => out.extend_from_slice(b"resolve"),
            _ => {
                out.extend_from_slice(b"now ");
                put_number(self.time, out);
            }
        }
        out.push(b'\n');
    }
}
