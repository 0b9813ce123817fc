//! The calls of the crate `indexmap`, where one that finds no memory returns an error. The crate
//! itself has no call that tries to insert; this is made as it is, of a list of the entries and a
//! table of their positions, which is that of the crate `hashbrown`.

#![deny(unsafe_op_in_unsafe_fn)]

use hashbrown::raw::RawTable;
use plain_std::alloc::{AllocError, AllocFailed, Global};
use plain_std::hash::{BuildHasher, BuildHasherDefault, FoldHasher, Hash};
use plain_std::vec::Vec;
use std::borrow::Borrow;
use std::ops::Index;

type FixedHasher = BuildHasherDefault<FoldHasher>;

struct Entry<K, V> {
    hash: u64,
    key: K,
    value: V,
}

/// Values by key, in an order.
pub struct IndexMap<K, V, S = FixedHasher> {
    /// The position of each entry, by the hash of its key.
    positions: RawTable<usize>,
    entries: Vec<Entry<K, V>>,
    hasher: S,
}

impl<K: Hash + Eq, V> IndexMap<K, V> {
    /// Returns an empty map, which takes no memory.
    pub fn new(alloc: Global) -> Self {
        Self::with_hasher(alloc, FixedHasher::default())
    }

    /// Returns an empty map with room for `capacity` entries.
    pub fn with_capacity(alloc: Global, capacity: usize) -> Result<Self, AllocError> {
        Self::with_capacity_and_hasher(alloc, capacity, FixedHasher::default())
    }
}

impl<K: Hash + Eq, V, S: BuildHasher> IndexMap<K, V, S> {
    /// Returns an empty map that hashes keys so.
    pub fn with_hasher(alloc: Global, hasher: S) -> Self {
        IndexMap {
            positions: RawTable::new(),
            entries: Vec::new(alloc),
            hasher,
        }
    }

    /// Returns an empty map with room for `capacity` entries, which hashes keys so.
    pub fn with_capacity_and_hasher(
        alloc: Global,
        capacity: usize,
        hasher: S,
    ) -> Result<Self, AllocError> {
        let mut map = Self::with_hasher(alloc, hasher);
        map.reserve(capacity)?;
        Ok(map)
    }

    /// Makes room for more entries.
    pub fn reserve(&mut self, additional: usize) -> Result<(), AllocError> {
        let entries = &self.entries;
        let hash_at = |at: &usize| entries[*at].hash;
        self.positions
            .try_reserve(additional, hash_at)
            .map_err(|_| AllocError)?;
        self.entries.reserve(additional)
    }

    /// Puts a value in at the end, or in the place of that of its key, which is returned. If memory
    /// runs out, key and value are given back.
    pub fn insert(&mut self, key: K, value: V) -> Result<Option<V>, AllocFailed<(K, V)>> {
        if let Some(at) = self.get_index_of(&key) {
            return Ok(Some(std::mem::replace(&mut self.entries[at].value, value)));
        }
        if self.reserve(1).is_err() {
            return Err(AllocFailed {
                value: (key, value),
            });
        }
        let hash = one_hash(&self.hasher, &key);
        let entries = &self.entries;
        self.positions
            .insert(hash, entries.len(), |at| entries[*at].hash);
        self.entries.push_reserved(Entry { hash, key, value });
        Ok(None)
    }

    /// Returns the position of a key.
    pub fn get_index_of<Q: ?Sized + Hash + Eq>(&self, key: &Q) -> Option<usize>
    where
        K: Borrow<Q>,
    {
        let is_key = |at: &usize| self.entries[*at].key.borrow() == key;
        self.positions
            .get(one_hash(&self.hasher, key), is_key)
            .copied()
    }

    /// Returns the value of a key.
    pub fn get<Q: ?Sized + Hash + Eq>(&self, key: &Q) -> Option<&V>
    where
        K: Borrow<Q>,
    {
        Some(&self.entries[self.get_index_of(key)?].value)
    }

    /// Returns the value of a key.
    pub fn get_mut<Q: ?Sized + Hash + Eq>(&mut self, key: &Q) -> Option<&mut V>
    where
        K: Borrow<Q>,
    {
        let at = self.get_index_of(key)?;
        Some(&mut self.entries[at].value)
    }

    /// Returns whether a key has a value.
    pub fn contains_key<Q: ?Sized + Hash + Eq>(&self, key: &Q) -> bool
    where
        K: Borrow<Q>,
    {
        self.get_index_of(key).is_some()
    }

    /// Takes the entry of a key out, and puts the last one there.
    pub fn swap_remove<Q: ?Sized + Hash + Eq>(&mut self, key: &Q) -> Option<V>
    where
        K: Borrow<Q>,
    {
        let at = self.get_index_of(key)?;
        let last = self.entries.len() - 1;
        self.positions
            .remove_entry(self.entries[at].hash, |other| *other == at);
        if at < last {
            *self.position_mut(last) = at;
        }
        Some(self.entries.swap_remove(at).value)
    }

    /// Exchanges two positions.
    pub fn swap_indices(&mut self, a: usize, b: usize) {
        if a == b {
            return;
        }
        // For a moment `a` has the position after the last, so that each is found by its own.
        let none = self.entries.len();
        *self.position_mut(a) = none;
        *self.position_mut(b) = a;
        let hash = self.entries[a].hash;
        let moved = self.positions.get_mut(hash, |at| *at == none);
        *moved.expect("it was put there") = b;
        self.entries.swap(a, b);
    }

    /// Returns where the table has the position of the entry at `at`.
    fn position_mut(&mut self, at: usize) -> &mut usize {
        let found = self
            .positions
            .get_mut(self.entries[at].hash, |other| *other == at);
        found.expect("each entry has a position")
    }

    /// Returns how keys are hashed.
    pub fn hasher(&self) -> &S {
        &self.hasher
    }
}

impl<K, V, S> IndexMap<K, V, S> {
    /// Returns how many entries there are.
    pub fn len(&self) -> usize {
        self.entries.len()
    }

    /// Returns whether there are no entries.
    pub fn is_empty(&self) -> bool {
        self.entries.is_empty()
    }

    /// Drops all entries.
    pub fn clear(&mut self) {
        self.positions.clear();
        self.entries.clear();
    }

    /// Returns the entry at a position.
    pub fn get_index(&self, index: usize) -> Option<(&K, &V)> {
        self.entries
            .get(index)
            .map(|entry| (&entry.key, &entry.value))
    }

    /// Returns the value at a position.
    pub fn get_index_mut(&mut self, index: usize) -> Option<&mut V> {
        self.entries.get_mut(index).map(|entry| &mut entry.value)
    }

    /// Returns the entries in order.
    pub fn iter(&self) -> impl Iterator<Item = (&K, &V)> {
        self.entries.iter().map(|entry| (&entry.key, &entry.value))
    }

    /// Returns the keys in order.
    pub fn keys(&self) -> impl Iterator<Item = &K> {
        self.entries.iter().map(|entry| &entry.key)
    }

    /// Returns the values in order.
    pub fn values(&self) -> impl Iterator<Item = &V> {
        self.entries.iter().map(|entry| &entry.value)
    }
}

impl<K, V, S> Index<usize> for IndexMap<K, V, S> {
    type Output = V;

    fn index(&self, index: usize) -> &V {
        &self.entries[index].value
    }
}

/// Values, each once, in an order.
pub struct IndexSet<T, S = FixedHasher> {
    map: IndexMap<T, (), S>,
}

impl<T: Hash + Eq> IndexSet<T> {
    /// Returns an empty set, which takes no memory.
    pub fn new(alloc: Global) -> Self {
        IndexSet {
            map: IndexMap::new(alloc),
        }
    }
}

impl<T: Hash + Eq, S: BuildHasher> IndexSet<T, S> {
    /// Puts a value in at the end, unless it is there. Returns its position, and whether it is new.
    /// If memory runs out, the value is given back.
    pub fn insert_full(&mut self, value: T) -> Result<(usize, bool), AllocFailed<T>> {
        if let Some(at) = self.map.get_index_of(&value) {
            return Ok((at, false));
        }
        match self.map.insert(value, ()) {
            Ok(_) => Ok((self.map.len() - 1, true)),
            Err(failed) => Err(AllocFailed {
                value: failed.value.0,
            }),
        }
    }

    /// Returns the position of a value.
    pub fn get_index_of<Q: ?Sized + Hash + Eq>(&self, value: &Q) -> Option<usize>
    where
        T: Borrow<Q>,
    {
        self.map.get_index_of(value)
    }
}

#[cfg(test)]
mod tests {
    use super::{IndexMap, IndexSet};
    use plain_std::alloc::Global;

    fn map_of(keys: &[u32]) -> IndexMap<u32, u32> {
        let mut map = IndexMap::new(Global);
        for key in keys {
            assert_eq!(map.insert(*key, key * 10).unwrap(), None);
        }
        map
    }

    fn pairs(map: &IndexMap<u32, u32>) -> std::vec::Vec<(u32, u32)> {
        map.iter().map(|(key, value)| (*key, *value)).collect()
    }

    #[test]
    fn the_last_entry_takes_the_place_of_one_that_is_removed() {
        let mut map = map_of(&[1, 2, 3, 4]);
        assert_eq!((map.swap_remove(&2), map.swap_remove(&2)), (Some(20), None));
        assert_eq!(pairs(&map), [(1, 10), (4, 40), (3, 30)]);
        assert_eq!((map.get_index_of(&4), map.get(&3)), (Some(1), Some(&30)));
        assert_eq!(map.swap_remove(&3), Some(30));
        assert_eq!(pairs(&map), [(1, 10), (4, 40)]);
    }

    #[test]
    fn positions_are_exchanged() {
        let mut map = map_of(&[1, 2, 3]);
        map.swap_indices(0, 2);
        map.swap_indices(1, 1);
        assert_eq!(pairs(&map), [(3, 30), (2, 20), (1, 10)]);
        assert_eq!(
            (map.get_index_of(&3), map.get_index_of(&1)),
            (Some(0), Some(2))
        );
    }

    #[test]
    fn a_key_keeps_its_position_when_it_gets_another_value() {
        let mut map = map_of(&[1, 2]);
        assert_eq!(map.insert(1, 7).unwrap(), Some(10));
        *map.get_mut(&2).unwrap() += 1;
        assert_eq!(pairs(&map), [(1, 7), (2, 21)]);
        map.clear();
        assert!(map.is_empty() && !map.contains_key(&1));
    }

    #[test]
    fn a_value_of_a_set_keeps_its_position() {
        let mut set = IndexSet::new(Global);
        assert_eq!(set.insert_full(7).unwrap(), (0, true));
        assert_eq!(set.insert_full(5).unwrap(), (1, true));
        assert_eq!(set.insert_full(7).unwrap(), (0, false));
        assert_eq!((set.get_index_of(&5), set.get_index_of(&6)), (Some(1), None));
    }

    #[test]
    fn many_keys_are_found() {
        let keys: std::vec::Vec<u32> = (0..5000).map(|n| n * 7919).collect();
        let mut map = map_of(&keys);
        for (at, key) in keys.iter().enumerate() {
            assert_eq!(map.get_index_of(key), Some(at));
        }
        for key in keys.iter().step_by(3) {
            assert_eq!(map.swap_remove(key), Some(key * 10));
        }
        for (at, key) in keys.iter().enumerate() {
            assert_eq!(map.contains_key(key), at % 3 != 0);
        }
    }
}

fn one_hash<S: BuildHasher, Q: std::hash::Hash + ?Sized>(hasher: &S, key: &Q) -> u64 {
    let mut one = hasher.build_hasher();
    key.hash(&mut one);
    std::hash::Hasher::finish(&one)
}
