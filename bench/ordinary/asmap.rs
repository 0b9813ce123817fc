//! Asmaps: the check, the lookup, the compiler, and the way back; and tables of prefixes.

use std::io::{self, Write};

use crate::address::{put_ipv4, put_ipv6, Address, Class};
use crate::text::{number, put_number};
use crate::Fault;

const MAX_ASMAP: usize = 8_388_608;
const MAX_ROWS: usize = 2_000_000;
const NUMBER: Classes = Classes { first: 1, digits: (15, 24) };
const MATCH: Classes = Classes { first: 2, digits: (1, 8) };
const JUMP: Classes = Classes { first: 17, digits: (5, 30) };

/// The classes of a number: how many digits the first and the last of them have, and the least number.
struct Classes {
    first: u64,
    digits: (u32, u32),
}

/// The bits of a file, the lowest of each byte first.
#[derive(Clone, Copy)]
struct Bits<'a> {
    bytes: &'a [u8],
    at: usize,
}

impl Bits<'_> {
    fn next(&mut self) -> Option<bool> {
        let byte = self.bytes.get(self.at / 8)?;
        let bit = byte >> (self.at % 8) & 1 == 1;
        self.at += 1;
        Some(bit)
    }

    fn number(&mut self, classes: &Classes) -> Option<u64> {
        let (mut digits, last) = classes.digits;
        let mut value = classes.first;
        while digits < last && self.next()? {
            value += 1 << digits;
            digits += 1;
        }
        let mut low = 0;
        for _ in 0..digits {
            low = low << 1 | u64::from(self.next()?);
        }
        Some(value + low)
    }

    fn instruction(&mut self) -> Option<Instruction> {
        Some(if !self.next()? {
            Instruction::Return(self.number(&NUMBER)? as u32)
        } else if !self.next()? {
            Instruction::Jump(self.number(&JUMP)? as usize)
        } else if !self.next()? {
            let bits = self.number(&MATCH)? as u32;
            Instruction::Match(bits, bits.ilog2())
        } else {
            Instruction::Default(self.number(&NUMBER)? as u32)
        })
    }
}

enum Instruction {
    Return(u32),
    Jump(usize),
    /// The bits after a leading one, and how many there are.
    Match(u32, u32),
    Default(u32),
}

/// What stands before an instruction, as far as it matters for the check.
#[derive(Clone, Copy, PartialEq)]
enum Before {
    Other,
    Default,
    ShortMatch,
}

/// Checks the tree at the current bit, for paths of at most `left` more bits.
fn check(bits: &mut Bits<'_>, left: u32, before: Before) -> Option<()> {
    match bits.instruction()? {
        Instruction::Return(_) if before == Before::Default => None,
        Instruction::Return(_) => Some(()),
        Instruction::Jump(length) => {
            let end = bits.at + length;
            let left = left.checked_sub(1)?;
            check(bits, left, Before::Other)?;
            if bits.at != end {
                return None;
            }
            check(bits, left, Before::Other)
        }
        Instruction::Match(_, length) => {
            let short = length < 8;
            if short && before == Before::ShortMatch {
                return None;
            }
            check(bits, left.checked_sub(length)?, if short { Before::ShortMatch } else { Before::Other })
        }
        Instruction::Default(_) if before == Before::Default => None,
        Instruction::Default(_) => check(bits, left, Before::Default),
    }
}

/// A checked file.
pub struct Asmap(pub Vec<u8>);

impl Asmap {
    pub fn checked(bytes: Vec<u8>) -> Result<Asmap, Fault> {
        if bytes.len() > MAX_ASMAP {
            return Err(Fault::Refused);
        }
        let mut bits = Bits { bytes: &bytes, at: 0 };
        check(&mut bits, 128, Before::Other).ok_or(Fault::Refused)?;
        let padding = 8 * bytes.len() - bits.at;
        if padding > 7 || bytes.last().is_some_and(|last| padding > 0 && last >> (8 - padding) != 0) {
            return Err(Fault::Refused);
        }
        Ok(Asmap(bytes))
    }

    /// The AS number of an address, 0 if it has none.
    pub fn number_of(&self, address: &Address) -> u32 {
        let mut bytes = [0; 16];
        match address.class() {
            Class::Ipv4 => {
                bytes[10..12].copy_from_slice(&[0xff, 0xff]);
                bytes[12..].copy_from_slice(&address.carried_ipv4().expect("of class IPv4"));
            }
            Class::Ipv6 => bytes.copy_from_slice(address.bytes()),
            _ => return 0,
        }
        self.walk(u128::from_be_bytes(bytes)).unwrap_or(0)
    }

    fn walk(&self, address: u128) -> Option<u32> {
        let mut bits = Bits { bytes: &self.0, at: 0 };
        let (mut left, mut default) = (128, 0);
        loop {
            match bits.instruction()? {
                Instruction::Return(number) => return Some(number),
                Instruction::Jump(length) => {
                    left -= 1;
                    if address >> left & 1 == 1 {
                        bits.at += length;
                    }
                }
                Instruction::Match(wanted, length) => {
                    left -= length;
                    let mask = (1 << length) - 1;
                    if (address >> left) as u32 & mask != wanted & mask {
                        return Some(default);
                    }
                }
                Instruction::Default(number) => default = number,
            }
        }
    }

    /// Hands out the rows that the file encodes, in order.
    pub fn rows(&self, give: &mut impl FnMut(Row) -> io::Result<()>) -> io::Result<()> {
        rows_at(&mut Bits { bytes: &self.0, at: 0 }, Row { bits: 0, length: 0, number: 0 }, 0, give)
    }

    /// Prints the rows, unless there are too many.
    pub fn decompile(&self, out: &mut impl Write) -> Result<(), Fault> {
        let mut count = 0;
        self.rows(&mut |_| {
            count += 1;
            Ok(())
        })?;
        if count > MAX_ROWS {
            return Err(Fault::Refused);
        }
        let mut line = Vec::with_capacity(64);
        self.rows(&mut |row| {
            line.clear();
            row.put(&mut line);
            out.write_all(&line)
        })?;
        Ok(())
    }
}

/// Walks the tree below a path. `path.number` is that of the longest row above.
fn rows_at(
    bits: &mut Bits<'_>,
    path: Row,
    default: u32,
    give: &mut impl FnMut(Row) -> io::Result<()>,
) -> io::Result<()> {
    let mut row = |number: u32| {
        if number != path.number {
            give(Row { number, ..path })?;
        }
        Ok::<u32, io::Error>(number)
    };
    match bits.instruction().expect("the file is sane") {
        Instruction::Return(number) => row(number).map(|_| ()),
        Instruction::Default(number) => rows_at(bits, path, number, give),
        Instruction::Match(wanted, length) => {
            let number = row(default)?;
            let wanted = u128::from(wanted & ((1 << length) - 1));
            let length = path.length + length as u8;
            let below = Row { bits: path.bits | wanted << (128 - u32::from(length)), length, number };
            rows_at(bits, below, default, give)
        }
        Instruction::Jump(_) => {
            let length = path.length + 1;
            rows_at(bits, Row { length, ..path }, default, give)?;
            let bit = 1 << (128 - u32::from(length));
            rows_at(bits, Row { bits: path.bits | bit, length, ..path }, default, give)
        }
    }
}

/// The number of all addresses that begin with the first `length` bits.
#[derive(Clone, Copy, PartialEq, Eq, PartialOrd, Ord)]
pub struct Row {
    bits: u128,
    length: u8,
    number: u32,
}

impl Row {
    fn parse(line: &[u8]) -> Option<Row> {
        let slash = line.iter().position(|&byte| byte == b'/')?;
        let space = line.iter().position(|&byte| byte == b' ')?;
        let asn = line.get(space..)?.strip_prefix(b" AS")?;
        let text = std::str::from_utf8(&line[..slash]).ok()?;
        let (bytes, shift) = match text.parse::<std::net::Ipv4Addr>() {
            Ok(four) => (four.to_ipv6_mapped().octets(), 96),
            Err(_) => (text.parse::<std::net::Ipv6Addr>().ok()?.octets(), 0),
        };
        let length = number(line.get(slash + 1..space)?, 128 - shift)? + shift;
        let bits = u128::from_be_bytes(bytes);
        if bits.checked_shl(length as u32).unwrap_or(0) != 0 {
            return None;
        }
        let number = number(asn, 33_521_664).filter(|&number| number > 0)?;
        Some(Row { bits, length: length as u8, number: number as u32 })
    }

    fn put(&self, out: &mut Vec<u8>) {
        let bytes = self.bits.to_be_bytes();
        let length = match bytes {
            [0, 0, 0, 0, 0, 0, 0, 0, 0, 0, 0xff, 0xff, a, b, c, d] if self.length >= 96 => {
                put_ipv4(&[a, b, c, d], out);
                self.length - 96
            }
            _ => {
                put_ipv6(&bytes, out);
                self.length
            }
        };
        out.push(b'/');
        put_number(length, out);
        out.extend_from_slice(b" AS");
        put_number(self.number, out);
        out.push(b'\n');
    }

    fn covers(&self, other: &Row) -> bool {
        self.length <= other.length && (self.bits ^ other.bits).leading_zeros() >= u32::from(self.length)
    }
}

/// Parses prefixes.txt.
pub fn read_rows(text: &[u8]) -> Result<Vec<Row>, Fault> {
    let mut rows = Vec::new();
    for line in text.split(|&byte| byte == b'\n') {
        if !line.is_empty() && line[0] != b'#' {
            rows.push(Row::parse(line).ok_or(Fault::Refused)?);
        }
    }
    if rows.is_empty() || rows.len() > MAX_ROWS {
        return Err(Fault::Refused);
    }
    Ok(rows)
}

/// Bits, the last one first: code is made from its end, so the length of a left part is known.
#[derive(Default)]
struct Back {
    words: Vec<u64>,
    length: usize,
}

impl Back {
    /// Puts the low `count` bits of a value before the others, its highest bit first.
    fn put(&mut self, value: u64, count: u32) {
        if count == 0 {
            return;
        }
        let value = value & (u64::MAX >> (64 - count));
        let used = self.length % 64;
        if used == 0 {
            self.words.push(value);
        } else {
            *self.words.last_mut().expect("some bits are used") |= value << used;
            if used + count as usize > 64 {
                self.words.push(value >> (64 - used));
            }
        }
        self.length += count as usize;
    }

    fn put_number(&mut self, number: u64, classes: &Classes) {
        let (mut digits, last) = classes.digits;
        let (mut first, mut ones) = (classes.first, 0);
        while number >= first + (1 << digits) {
            first += 1 << digits;
            digits += 1;
            ones += 1;
        }
        self.put(number - first, digits);
        if digits < last {
            self.put(0, 1);
        }
        self.put(u64::MAX, ones);
    }

    /// The file: the bits from the first on, the lowest of each byte first.
    fn into_bytes(self) -> Vec<u8> {
        let bit = |at: usize| self.words[at / 64] >> (at % 64) & 1;
        let mut bytes = Vec::with_capacity(self.length.div_ceil(8));
        let mut at = self.length;
        while at >= 8 {
            at -= 8;
            let (word, low) = (at / 64, at % 64);
            let mut eight = self.words[word] >> low;
            if low > 56 {
                eight |= self.words[word + 1] << (64 - low);
            }
            bytes.push((eight as u8).reverse_bits());
        }
        if at > 0 {
            bytes.push((0..at).fold(0, |byte, index| byte | (bit(at - 1 - index) as u8) << index));
        }
        bytes
    }
}

/// Puts the tree of a path: of the rows that begin with its `length` bits, in order. `number` is that
/// of the longest row above, `default` what a failing match answers.
fn put_path(mut rows: &[Row], length: u8, mut number: u32, default: u32, out: &mut Back) {
    if let Some(own) = rows.first().filter(|row| row.length == length) {
        number = own.number;
        rows = &rows[1..];
    }
    let (Some(first), Some(last)) = (rows.first(), rows.last()) else {
        out.put_number(number.into(), &NUMBER);
        return out.put(0, 1);
    };
    let shared = (first.bits ^ last.bits).leading_zeros().min(first.length.into()) as u8;
    if shared == length {
        let ones = rows.partition_point(|row| row.bits << length >> 127 == 0);
        put_path(&rows[ones..], length + 1, number, default, out);
        let before = out.length;
        put_path(&rows[..ones], length + 1, number, default, out);
        out.put_number((out.length - before) as u64, &JUMP);
        return out.put(0b10, 2);
    }
    put_path(rows, shared, number, number, out);
    let mut end = shared;
    while end > length {
        let size = match (end - length) % 8 {
            0 => 8,
            rest => rest,
        };
        let bits = (first.bits << (end - size) >> (128 - u32::from(size))) as u64;
        out.put_number(bits | 1 << size, &MATCH);
        out.put(0b110, 3);
        end -= size;
    }
    if number != default {
        out.put_number(number.into(), &NUMBER);
        out.put(0b111, 3);
    }
}

/// Compiles rows into a file; answers its bits and its bytes.
pub fn compile(rows: &mut Vec<Row>) -> Result<(usize, Vec<u8>), Fault> {
    rows.sort_unstable();
    if rows.windows(2).any(|pair| (pair[0].bits, pair[0].length) == (pair[1].bits, pair[1].length)) {
        return Err(Fault::Refused);
    }
    let mut above: Vec<Row> = Vec::new();
    rows.retain(|row| {
        while above.last().is_some_and(|top| !top.covers(row)) {
            above.pop();
        }
        let kept = above.last().is_none_or(|top| top.number != row.number);
        above.push(*row);
        kept
    });
    let mut code = Back::default();
    put_path(rows, 0, 0, 0, &mut code);
    let bits = code.length;
    let bytes = code.into_bytes();
    if bytes.len() > MAX_ASMAP {
        return Err(Fault::Refused);
    }
    Ok((bits, bytes))
}
