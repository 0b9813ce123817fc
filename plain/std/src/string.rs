//! `String`, where a call that finds no memory returns an error.

use crate::alloc::{AllocError, Global};
use crate::vec::Vec;
use std::fmt::{self, Write as _};
use std::ops::Deref;
use std::path::Path;

type Std = std::string::String;

/// A text that grows.
#[derive(PartialEq, Eq, PartialOrd, Ord, Hash)]
#[repr(transparent)]
pub struct String(pub Std);

/// The bytes are not UTF-8.
pub struct FromUtf8Error(std::string::FromUtf8Error);

impl FromUtf8Error {
    /// Gives the bytes back.
    pub fn into_bytes(self) -> Vec<u8> {
        Vec(self.0.into_bytes())
    }
}

impl String {
    /// Returns an empty text, which takes no memory.
    pub fn new(_alloc: Global) -> String {
        String(Std::new())
    }

    /// Returns an empty text with room for `capacity` bytes.
    pub fn with_capacity(_alloc: Global, capacity: usize) -> Result<String, AllocError> {
        let mut text = Std::new();
        text.try_reserve_exact(capacity)?;
        Ok(String(text))
    }

    /// Copies a text.
    pub fn from_str(alloc: Global, text: &str) -> Result<String, AllocError> {
        let mut copy = String::with_capacity(alloc, text.len())?;
        copy.0.push_str(text);
        Ok(copy)
    }

    /// Returns the text that has these bytes.
    pub fn from_utf8(bytes: Vec<u8>) -> Result<String, FromUtf8Error> {
        Std::from_utf8(bytes.0).map(String).map_err(FromUtf8Error)
    }

    /// Appends a text.
    #[inline]
    pub fn push_str(&mut self, text: &str) -> Result<(), AllocError> {
        self.0.try_reserve(text.len())?;
        self.0.push_str(text);
        Ok(())
    }

    /// Appends a character.
    #[inline]
    pub fn push(&mut self, character: char) -> Result<(), AllocError> {
        self.0.try_reserve(character.len_utf8())?;
        self.0.push(character);
        Ok(())
    }

    /// Appends a format.
    pub fn write_fmt(&mut self, format: fmt::Arguments<'_>) -> Result<(), AllocError> {
        Writer(&mut self.0)
            .write_fmt(format)
            .map_err(|_| AllocError)
    }

    /// Returns the text.
    pub fn as_str(&self) -> &str {
        &self.0
    }

    /// Returns the bytes of the text.
    pub fn as_bytes(&self) -> &[u8] {
        self.0.as_bytes()
    }

    /// Returns the bytes of the text.
    pub fn into_bytes(self) -> Vec<u8> {
        Vec(self.0.into_bytes())
    }

    /// Empties the text.
    pub fn clear(&mut self) {
        self.0.clear();
    }

    /// Drops the bytes from an offset on.
    pub fn truncate(&mut self, len: usize) {
        self.0.truncate(len);
    }
}

/// Appends what is formatted, as long as there is memory.
struct Writer<'a>(&'a mut Std);

impl fmt::Write for Writer<'_> {
    fn write_str(&mut self, text: &str) -> fmt::Result {
        self.0.try_reserve(text.len()).map_err(|_| fmt::Error)?;
        self.0.push_str(text);
        Ok(())
    }
}

/// Returns the text of a format. This is `format!`.
pub fn format(alloc: Global, format: fmt::Arguments<'_>) -> Result<String, AllocError> {
    let mut text = String::new(alloc);
    text.write_fmt(format)?;
    Ok(text)
}

impl Deref for String {
    type Target = str;

    #[inline]
    fn deref(&self) -> &str {
        &self.0
    }
}

impl fmt::Display for String {
    fn fmt(&self, f: &mut fmt::Formatter<'_>) -> fmt::Result {
        f.pad(&self.0)
    }
}

impl fmt::Debug for String {
    fn fmt(&self, f: &mut fmt::Formatter<'_>) -> fmt::Result {
        fmt::Debug::fmt(&self.0, f)
    }
}

impl AsRef<str> for String {
    fn as_ref(&self) -> &str {
        &self.0
    }
}

impl AsRef<[u8]> for String {
    fn as_ref(&self) -> &[u8] {
        self.0.as_bytes()
    }
}

impl AsRef<Path> for String {
    fn as_ref(&self) -> &Path {
        self.0.as_ref()
    }
}

#[cfg(test)]
mod tests {
    use super::{String, format};
    use crate::alloc::Global;
    use crate::vec::Vec;

    #[test]
    fn a_format_is_appended() {
        let mut text = format(Global, format_args!("{}-{:02}", "a", 7)).unwrap();
        text.push('é').unwrap();
        text.push_str("!").unwrap();
        assert_eq!(text.as_str(), "a-07é!");
        assert_eq!(std::format!("{text:>8}|"), "  a-07é!|");
    }

    #[test]
    fn bytes_that_are_not_utf8_are_given_back() {
        let bytes = Vec::from_array(Global, [b'a', 0xff]).unwrap();
        let error = match String::from_utf8(bytes) { Err(error) => error, _ => {
            panic!("they are not UTF-8");
        } };
        assert_eq!(error.into_bytes().as_slice(), [b'a', 0xff]);
    }
}
