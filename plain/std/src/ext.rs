//! Methods of Rattle's `std` whose names Rust has for others: `.to_vec(alloc)` is `.to_vec_with(alloc)`.

use crate::alloc::{AllocError, Global};
use crate::string::{String, format};
use crate::vec::Vec;
use std::fmt::{self, Display};
use std::net::{Ipv4Addr, Ipv6Addr};

/// A copy of a slice as a list.
pub trait ToVecWith<T> {
    /// Copies the items.
    fn to_vec_with(&self, alloc: Global) -> Result<Vec<T>, AllocError>;
}

impl<T: Clone> ToVecWith<T> for [T] {
    fn to_vec_with(&self, alloc: Global) -> Result<Vec<T>, AllocError> {
        Vec::from_slice(alloc, self)
    }
}

/// A value as a text.
pub trait ToStringWith {
    /// Returns what the value displays.
    fn to_string_with(&self, alloc: Global) -> Result<String, AllocError>;
}

impl<T: Display> ToStringWith for T {
    fn to_string_with(&self, alloc: Global) -> Result<String, AllocError> {
        format(alloc, format_args!("{self}"))
    }
}

/// The items of an iterator as a list.
pub trait CollectWith: Iterator + Sized {
    /// Returns all items.
    fn collect_with(self, alloc: Global) -> Result<Vec<Self::Item>, AllocError> {
        let mut items = Vec::with_capacity(alloc, self.size_hint().0)?;
        for item in self {
            items.push(item)?;
        }
        Ok(items)
    }
}

impl<I: Iterator> CollectWith for I {}

/// A copy that may need memory.
pub trait TryClone: Sized {
    /// Copies the value.
    fn try_clone(&self) -> Result<Self, AllocError>;
}

impl<T: TryClone> TryClone for Vec<T> {
    fn try_clone(&self) -> Result<Vec<T>, AllocError> {
        let mut copy = Vec::with_capacity(Global, self.len())?;
        for item in self {
            copy.push(item.try_clone()?)?;
        }
        Ok(copy)
    }
}

impl TryClone for String {
    fn try_clone(&self) -> Result<String, AllocError> {
        String::from_str(Global, self)
    }
}

/// Plain data: the lists and texts here have no `Clone`.
impl<T: Clone> TryClone for T {
    fn try_clone(&self) -> Result<T, AllocError> {
        Ok(self.clone())
    }
}

/// An address of the Internet, read from its text.
pub trait FromAscii: Sized {
    /// Reads the address that all of the text spells. Rust's `parse_ascii` is unstable.
    fn from_ascii(text: &[u8]) -> Result<Self, AddrParseError>;
}

/// The text spells no address.
#[derive(Clone, Copy, Debug, PartialEq, Eq)]
pub struct AddrParseError;

fn parse<T: std::str::FromStr>(text: &[u8]) -> Result<T, AddrParseError> {
    let text = std::str::from_utf8(text).map_err(|_| AddrParseError)?;
    text.parse().map_err(|_| AddrParseError)
}

impl FromAscii for Ipv4Addr {
    fn from_ascii(text: &[u8]) -> Result<Ipv4Addr, AddrParseError> {
        parse(text)
    }
}

impl FromAscii for Ipv6Addr {
    fn from_ascii(text: &[u8]) -> Result<Ipv6Addr, AddrParseError> {
        parse(text)
    }
}

/// The groups of an address of 16 bytes.
pub trait HexGroups {
    /// Returns what displays the address in groups of hexadecimal digits, as RFC 5952 says, but
    /// never with a dotted IPv4 address at the end.
    fn hex_groups(&self) -> Groups;
}

/// Displays eight groups of hexadecimal digits.
pub struct Groups([u16; 8]);

impl HexGroups for Ipv6Addr {
    fn hex_groups(&self) -> Groups {
        Groups(self.segments())
    }
}

impl Groups {
    /// Returns the start and the length of the longest run of zeros, the first of several.
    fn zeros(&self) -> (usize, usize) {
        let (mut start, mut len, mut run) = (0, 0, 0);
        for (index, group) in self.0.iter().enumerate() {
            run = if *group == 0 { run + 1 } else { 0 };
            if run > len {
                (start, len) = (index + 1 - run, run);
            }
        }
        (start, len)
    }
}

impl Display for Groups {
    fn fmt(&self, f: &mut fmt::Formatter<'_>) -> fmt::Result {
        let (start, len) = self.zeros();
        let is_short = len > 1;
        for (index, group) in self.0.iter().enumerate() {
            if is_short && (start..start + len).contains(&index) {
                if index == start {
                    f.write_str("::")?;
                }
                continue;
            }
            if index > 0 && !(is_short && index == start + len) {
                f.write_str(":")?;
            }
            write!(f, "{group:x}")?;
        }
        Ok(())
    }
}

#[cfg(test)]
mod tests {
    use super::{CollectWith, FromAscii, HexGroups, ToStringWith, ToVecWith};
    use crate::alloc::Global;
    use std::net::{Ipv4Addr, Ipv6Addr};

    #[test]
    fn copies_are_made() {
        assert_eq!([1, 2].to_vec_with(Global).unwrap().as_slice(), [1, 2]);
        assert_eq!((1..4).collect_with(Global).unwrap().as_slice(), [1, 2, 3]);
        assert_eq!(7.to_string_with(Global).unwrap().as_str(), "7");
    }

    #[test]
    fn an_address_is_all_of_its_text() {
        assert_eq!(
            Ipv4Addr::from_ascii(b"1.2.3.4"),
            Ok(Ipv4Addr::new(1, 2, 3, 4))
        );
        for text in [&b"1.2.3.4 "[..], b"1.2.3", b"01.2.3.4", b"\xff"] {
            assert!(Ipv4Addr::from_ascii(text).is_err());
        }
    }

    #[test]
    fn groups_are_those_of_std_unless_it_prints_dots() {
        let texts = [
            "::",
            "::1",
            "1::",
            "1:2::",
            "1:0:0:2::3",
            "1:2:3:4:5:6:7:8",
            "0:1:0:1:0:1:0:1",
        ];
        for text in texts
            .into_iter()
            .chain(["fc00::", "1:0:2:3:4:5:6:7", "2001:db8::ff00:42:8329"])
        {
            let address: Ipv6Addr = text.parse().unwrap();
            assert_eq!(address.hex_groups().to_string(), address.to_string());
        }
        let mapped: Ipv6Addr = "::ffff:1.2.3.4".parse().unwrap();
        assert_eq!(mapped.hex_groups().to_string(), "::ffff:102:304");
    }
}
