//! Numbers, hexadecimal digits and random words, as logs write them.

use rand_xoshiro::rand_core::{RngCore, SeedableRng};
use rand_xoshiro::Xoshiro256PlusPlus;

/// Parses a number without leading zeros that is at most `most`.
pub fn number(text: &[u8], most: u64) -> Option<u64> {
    if text.is_empty() || text.len() > 20 || text.len() > 1 && text[0] == b'0' {
        return None;
    }
    let mut value = 0u64;
    for &digit in text {
        let digit = digit.wrapping_sub(b'0');
        if digit > 9 {
            return None;
        }
        value = value.checked_mul(10)?.checked_add(digit.into())?;
    }
    (value <= most).then_some(value)
}

/// Parses a number of 32 bits.
pub fn small(text: &[u8]) -> Option<u32> {
    number(text, u32::MAX.into()).map(|value| value as u32)
}

/// Appends a number.
pub fn put_number<I: itoa::Integer>(value: I, out: &mut Vec<u8>) {
    out.extend_from_slice(itoa::Buffer::new().format(value).as_bytes());
}

/// Decodes hexadecimal digits; `-` is no byte at all.
pub fn payload(text: &[u8]) -> Option<Vec<u8>> {
    match text {
        b"-" => Some(Vec::new()),
        b"" => None,
        _ => hex::decode(text).ok(),
    }
}

/// Appends bytes as hexadecimal digits.
pub fn put_hex(bytes: &[u8], out: &mut Vec<u8>) {
    let start = out.len();
    out.resize(start + 2 * bytes.len(), 0);
    hex::encode_to_slice(bytes, &mut out[start..]).expect("there is room for two digits a byte");
}

/// Random words: listed ones, or those of a seed, which are made as they are needed.
pub enum Words {
    Listed(std::vec::IntoIter<u64>),
    Seeded(Xoshiro256PlusPlus, usize),
}

impl Words {
    /// Parses `-`, `W,W,..` or `@SEED:COUNT`.
    pub fn parse(text: &[u8]) -> Option<Words> {
        if text == b"-" {
            return Some(Words::Listed(Vec::new().into_iter()));
        }
        if let Some(seeded) = text.strip_prefix(b"@") {
            let colon = seeded.iter().position(|&byte| byte == b':')?;
            let seed = number(&seeded[..colon], u64::MAX)?;
            let count = number(&seeded[colon + 1..], 1_000_000)?;
            return Some(Words::Seeded(Xoshiro256PlusPlus::seed_from_u64(seed), count as usize));
        }
        let words: Option<Vec<u64>> = text.split(|&byte| byte == b',').map(|word| number(word, u64::MAX)).collect();
        Some(Words::Listed(words?.into_iter()))
    }

    /// How many words are left.
    pub fn left(&self) -> usize {
        match self {
            Words::Listed(words) => words.len(),
            Words::Seeded(_, count) => *count,
        }
    }
}

impl Iterator for Words {
    type Item = u64;

    fn next(&mut self) -> Option<u64> {
        match self {
            Words::Listed(words) => words.next(),
            Words::Seeded(_, 0) => None,
            Words::Seeded(generator, count) => {
                *count -= 1;
                Some(generator.next_u64())
            }
        }
    }
}
