//! The calls of the crate `hex`, where one that finds no memory returns an error.

#![deny(unsafe_op_in_unsafe_fn)]

use plain_std::alloc::{AllocError, Global};
use plain_std::string::String;
use plain_std::vec::Vec;

/// Why a text is not decoded.
#[derive(Clone, Copy, Debug, PartialEq, Eq)]
pub enum FromHexError {
    /// A character is no hexadecimal digit.
    InvalidHexCharacter {
        /// The character.
        c: char,
        /// Its offset in bytes.
        index: usize,
    },
    /// The number of digits is odd.
    OddLength,
    /// The number of digits is not twice that of the bytes.
    InvalidStringLength,
    /// Memory ran out.
    OutOfMemory,
}

impl From<AllocError> for FromHexError {
    fn from(_: AllocError) -> FromHexError {
        FromHexError::OutOfMemory
    }
}

const DIGITS: &[u8; 16] = b"0123456789abcdef";

/// Returns the value of a digit, which is at this offset.
fn value_of(digit: u8, index: usize) -> Result<u8, FromHexError> {
    match digit {
        b'0'..=b'9' => Ok(digit - b'0'),
        b'a'..=b'f' => Ok(digit - b'a' + 10),
        b'A'..=b'F' => Ok(digit - b'A' + 10),
        _ => Err(FromHexError::InvalidHexCharacter {
            c: char::from(digit),
            index,
        }),
    }
}

/// Decodes a text into bytes, of which there are half as many.
pub fn decode_to_slice<T: AsRef<[u8]>>(text: T, out: &mut [u8]) -> Result<(), FromHexError> {
    let text = text.as_ref();
    if text.len() % 2 != 0 {
        return Err(FromHexError::OddLength);
    }
    if text.len() / 2 != out.len() {
        return Err(FromHexError::InvalidStringLength);
    }
    for (index, byte) in out.iter_mut().enumerate() {
        let high = value_of(text[2 * index], 2 * index)?;
        *byte = 16 * high + value_of(text[2 * index + 1], 2 * index + 1)?;
    }
    Ok(())
}

/// Decodes a text.
pub fn decode<T: AsRef<[u8]>>(alloc: Global, text: T) -> Result<Vec<u8>, FromHexError> {
    let text = text.as_ref();
    let mut bytes = Vec::from_elem(alloc, 0, text.len() / 2)?;
    decode_to_slice(text, &mut bytes)?;
    Ok(bytes)
}

/// Writes bytes as digits in lower case, of which there are twice as many.
pub fn encode_to_slice<T: AsRef<[u8]>>(bytes: T, out: &mut [u8]) -> Result<(), FromHexError> {
    let bytes = bytes.as_ref();
    if bytes.len() * 2 != out.len() {
        return Err(FromHexError::InvalidStringLength);
    }
    for (byte, pair) in bytes.iter().zip(out.chunks_exact_mut(2)) {
        pair[0] = DIGITS[usize::from(byte >> 4)];
        pair[1] = DIGITS[usize::from(byte & 15)];
    }
    Ok(())
}

/// Returns bytes as digits in lower case.
pub fn encode<T: AsRef<[u8]>>(alloc: Global, bytes: T) -> Result<String, AllocError> {
    let bytes = bytes.as_ref();
    let mut text = String::with_capacity(alloc, 2 * bytes.len())?;
    for byte in bytes {
        text.push(char::from(DIGITS[usize::from(byte >> 4)]))?;
        text.push(char::from(DIGITS[usize::from(byte & 15)]))?;
    }
    Ok(text)
}

/// What is decoded from a text.
pub trait FromHex: Sized {
    /// Decodes a text.
    fn from_hex<T: AsRef<[u8]>>(text: T) -> Result<Self, FromHexError>;
}

impl<const N: usize> FromHex for [u8; N] {
    fn from_hex<T: AsRef<[u8]>>(text: T) -> Result<Self, FromHexError> {
        let mut bytes = [0; N];
        decode_to_slice(text, &mut bytes)?;
        Ok(bytes)
    }
}

#[cfg(test)]
mod tests {
    use super::{FromHex, FromHexError, decode, encode, encode_to_slice};
    use plain_std::alloc::Global;

    #[test]
    fn bytes_are_encoded_and_decoded() {
        let bytes = [0x00, 0x1f, 0xa0, 0xff];
        let text = encode(Global, bytes).unwrap();
        assert_eq!(text.as_str(), "001fa0ff");
        assert_eq!(decode(Global, "001FA0fF").unwrap().as_slice(), bytes);
        let mut out = [0; 8];
        encode_to_slice(bytes, &mut out).unwrap();
        assert_eq!(&out, b"001fa0ff");
    }

    #[test]
    fn the_first_fault_is_named() {
        type Four = [u8; 2];
        assert_eq!(Four::from_hex("00a"), Err(FromHexError::OddLength));
        assert_eq!(Four::from_hex("00"), Err(FromHexError::InvalidStringLength));
        let fault = FromHexError::InvalidHexCharacter { c: 'g', index: 2 };
        assert_eq!(Four::from_hex("00g0"), Err(fault));
    }
}
