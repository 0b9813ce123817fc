use crate::keyed::Keyed;
use net_addr::{Memory, NetAddr};
use net_group::MAX_GROUP;
use placing::Placer;
use plain_std::alloc::{AllocError, Global};
use std::collections::{HashMap, TryReserveError};
use table_groups::name_of;

/// There is no memory.
pub struct NoMemory;

impl From<TryReserveError> for NoMemory {
    fn from(_: TryReserveError) -> NoMemory {
        NoMemory
    }
}

impl From<Memory> for NoMemory {
    fn from(_: Memory) -> NoMemory {
        NoMemory
    }
}

impl From<AllocError> for NoMemory {
    fn from(_: AllocError) -> NoMemory {
        NoMemory
    }
}

/// The bytes of a group, zeros up to the most that one has, and how many they are.
type Bytes = ([u8; MAX_GROUP], usize);

/// The groups of addresses, numbered in the order in which they come.
pub struct Groups<'a> {
    placer: &'a Placer<'a>,
    numbers: HashMap<Bytes, u32, Keyed>,
    /// The numbers of sources: many peers have the same one.
    of_sources: HashMap<NetAddr, u32, Keyed>,
    /// The names of the groups, a line each.
    pub names: Vec<u8>,
}

impl<'a> Groups<'a> {
    pub fn new(placer: &'a Placer<'a>, key: Keyed) -> Groups<'a> {
        Groups {
            placer,
            numbers: HashMap::with_hasher(key),
            of_sources: HashMap::with_hasher(key),
            names: Vec::new(),
        }
    }

    /// Returns the number of an address's group.
    pub fn number_of(&mut self, addr: &NetAddr) -> Result<u32, NoMemory> {
        let group = self.placer.group(addr);
        let mut bytes = [0; MAX_GROUP];
        bytes[..group.len()].copy_from_slice(&group);
        let bytes = (bytes, group.len());
        if let Some(number) = self.numbers.get(&bytes) {
            return Ok(*number);
        }
        let (number, name) = (
            self.numbers.len() as u32,
            name_of(Global, self.placer, addr)?,
        );
        self.names.try_reserve(name.len() + 1)?;
        self.names.extend_from_slice(name.as_slice());
        self.names.push(b'\n');
        self.numbers.try_reserve(1)?;
        self.numbers.insert(bytes, number);
        Ok(number)
    }

    /// Returns the same of an address that may come again.
    pub fn number_of_source(&mut self, addr: &NetAddr) -> Result<u32, NoMemory> {
        if let Some(number) = self.of_sources.get(addr) {
            return Ok(*number);
        }
        let number = self.number_of(addr)?;
        self.of_sources.try_reserve(1)?;
        self.of_sources.insert(*addr, number);
        Ok(number)
    }
}
