//! The file that says which provider announces an address.

use crate::message::copied;
use crate::{Address, AsmapError, CompileError, DecompileError};
use asmap_vm::Sane;
use placing::SumRule;
use plain_std::alloc::Global;
use plain_std::vec;

/// An asmap that was checked: a table from addresses to the numbers of the autonomous systems that
/// announce them. With one, all ranges of a provider are one group.
///
/// ```
/// use addrman::{AddrMan, Asmap};
///
/// let bytes = Asmap::compile(b"8.8.8.0/24 AS15169\n9.9.9.0/24 AS19281\n").unwrap();
/// let asmap = Asmap::new(&bytes).unwrap();
/// let peers = AddrMan::with_key([0; 32], Some(&asmap)).unwrap();
/// assert_eq!(peers.asn(&"8.8.8.8".parse().unwrap()), 15169);
/// ```
///
/// A `peers.dat` has a checksum of the asmap that it was placed by. Bitcoin Core's differs from this
/// crate's, which is that of the program: a file that both read needs an asmap
/// [with Bitcoin Core's checksum](Asmap::with_core_checksum).
#[derive(Clone, Copy)]
pub struct Asmap<'a> {
    pub(crate) map: Sane<'a>,
    pub(crate) rule: SumRule,
}

/// The asmap below, and the rule for its checksum.
pub(crate) fn parts<'a>(asmap: Option<&Asmap<'a>>) -> (Option<Sane<'a>>, SumRule) {
    match asmap {
        Some(asmap) => (Some(asmap.map), asmap.rule),
        None => (None, SumRule::Bytes),
    }
}

impl<'a> Asmap<'a> {
    /// Checks the bytes of an `asmap.dat`.
    ///
    /// # Errors
    ///
    /// The bytes are too many, or not those of a sane asmap.
    ///
    /// ```
    /// assert!(addrman::Asmap::new(b"").is_err());
    /// ```
    pub fn new(bytes: &'a [u8]) -> Result<Asmap<'a>, AsmapError> {
        let map = asmap_vm::check(bytes).map_err(AsmapError)?;
        let rule = SumRule::Bytes;
        Ok(Asmap { map, rule })
    }

    /// Returns the asmap with the checksum of Bitcoin Core 24 to 30. Tables that were made or loaded
    /// with it save a file that a Bitcoin Core node with this asmap reads as placed by it; and a
    /// file of such a node is loaded as placed by it.
    ///
    /// ```
    /// use addrman::{AddrMan, Asmap, Chain};
    ///
    /// let bytes = Asmap::compile(b"8.8.8.0/24 AS15169\n").unwrap();
    /// let asmap = Asmap::new(&bytes).unwrap();
    /// let ours = AddrMan::with_key([7; 32], Some(&asmap)).unwrap();
    /// let core = AddrMan::with_key([7; 32], Some(&asmap.with_core_checksum())).unwrap();
    /// // The files differ in the checksum.
    /// assert_ne!(ours.to_bytes(Chain::Main).unwrap(), core.to_bytes(Chain::Main).unwrap());
    /// ```
    pub fn with_core_checksum(self) -> Asmap<'a> {
        let rule = SumRule::Bits;
        Asmap { rule, ..self }
    }

    /// Returns the checksum that a `peers.dat` has of the asmap.
    ///
    /// ```
    /// # use addrman::Asmap;
    /// let bytes = Asmap::compile(b"8.8.8.0/24 AS15169\n").unwrap();
    /// let asmap = Asmap::new(&bytes).unwrap();
    /// assert_ne!(asmap.checksum(), asmap.with_core_checksum().checksum());
    /// ```
    pub fn checksum(&self) -> [u8; 32] {
        placing::sum_by(self.rule, Some(self.map))
    }

    /// Returns the number of the autonomous system that announces an address, 0 if none is known.
    ///
    /// ```
    /// # use addrman::Asmap;
    /// let bytes = Asmap::compile(b"8.8.8.0/24 AS15169\n").unwrap();
    /// let asmap = Asmap::new(&bytes).unwrap();
    /// assert_eq!(asmap.asn(&"8.8.8.8".parse().unwrap()), 15169);
    /// ```
    pub fn asn(&self, address: &Address) -> u32 {
        placing::number_of(&self.map, &address.0)
    }

    /// Compiles the text of a table of prefixes, a line `PREFIX AS` with a number for each, and
    /// returns the bytes of the asmap. Where prefixes overlap, the longest counts.
    ///
    /// # Errors
    ///
    /// The text is that of no table, or of an empty one, the asmap would be too large, or there is
    /// no memory.
    ///
    /// ```
    /// use addrman::{Asmap, CompileError};
    ///
    /// assert!(Asmap::compile(b"8.8.8.0/24 AS15169\n").is_ok());
    /// assert_eq!(Asmap::compile(b""), Err(CompileError::Empty));
    /// ```
    pub fn compile(text: &[u8]) -> Result<Vec<u8>, CompileError> {
        let table = node_face::read_prefixes(Global, text)?;
        let file = asmap_compile::compile_in_place(Global, table)?;
        copied(file.code()).map_err(CompileError::Memory)
    }

    /// Returns the text of a table of prefixes that gives every address its number.
    ///
    /// # Errors
    ///
    /// The table would have too many rows, or there is no memory.
    ///
    /// ```
    /// # use addrman::Asmap;
    /// let text = b"8.8.8.0/24 AS15169\n";
    /// let bytes = Asmap::compile(text).unwrap();
    /// assert_eq!(Asmap::new(&bytes).unwrap().decompile().unwrap(), text);
    /// ```
    pub fn decompile(&self) -> Result<Vec<u8>, DecompileError> {
        let table = asmap_back::decompile(Global, &self.map)?;
        let mut text = vec::Vec::new(Global);
        match prefix_table::put_table(&table, &mut text) {
            Ok(()) => copied(&text).map_err(DecompileError::Memory),
            Err(_) => Err(DecompileError::Memory(crate::Memory)),
        }
    }
}

impl std::fmt::Debug for Asmap<'_> {
    fn fmt(&self, f: &mut std::fmt::Formatter<'_>) -> std::fmt::Result {
        f.write_str("Asmap")
    }
}
