//! The calls of the crate `slab`, where one that finds no memory returns an error. A key that was
//! removed last is given out first, as there.

#![deny(unsafe_op_in_unsafe_fn)]

use plain_std::alloc::{AllocError, AllocFailed, Global};
use plain_std::vec::Vec;
use std::ops::{Index, IndexMut};

/// Values by keys that it gives out.
pub struct Slab<T> {
    entries: Vec<Entry<T>>,
    len: usize,
    /// The key that is given out next.
    next: usize,
}

enum Entry<T> {
    /// No value, and the key that is given out after this one.
    Vacant(usize),
    Occupied(T),
}

impl<T> Slab<T> {
    /// Returns one without values, which takes no memory.
    pub fn new(alloc: Global) -> Slab<T> {
        Slab {
            entries: Vec::new(alloc),
            len: 0,
            next: 0,
        }
    }

    /// Makes room for more values, and for no others.
    pub fn reserve_exact(&mut self, additional: usize) -> Result<(), AllocError> {
        let vacant = self.entries.len() - self.len;
        self.entries
            .reserve_exact(additional.saturating_sub(vacant))
    }

    /// Puts a value in, and returns its key. If memory runs out, the value is given back.
    #[inline]
    pub fn insert(&mut self, value: T) -> Result<usize, AllocFailed<T>> {
        let key = self.next;
        match self.entries.get(key) {
            Some(Entry::Vacant(next)) => {
                self.next = *next;
                self.entries[key] = Entry::Occupied(value);
            }
            _ => {
                if self.entries.reserve(1).is_err() {
                    return Err(AllocFailed { value });
                }
                self.entries.push_reserved(Entry::Occupied(value));
                self.next = key + 1;
            }
        }
        self.len += 1;
        Ok(key)
    }

    /// Takes the value of a key out.
    ///
    /// # Panics
    ///
    /// If the key has no value.
    pub fn remove(&mut self, key: usize) -> T {
        let entry = &mut self.entries[key];
        let value = match std::mem::replace(entry, Entry::Vacant(self.next)) { Entry::Occupied(value) => value, _ => {
            panic!("the key has no value");
        } };
        self.next = key;
        self.len -= 1;
        value
    }

    /// Returns how many values there are.
    pub fn len(&self) -> usize {
        self.len
    }

    /// Returns whether there are no values.
    pub fn is_empty(&self) -> bool {
        self.len == 0
    }

    /// Returns the value of a key.
    pub fn get(&self, key: usize) -> Option<&T> {
        match self.entries.get(key) {
            Some(Entry::Occupied(value)) => Some(value),
            _ => None,
        }
    }
}

impl<T> Index<usize> for Slab<T> {
    type Output = T;

    #[inline]
    fn index(&self, key: usize) -> &T {
        match &self.entries[key] {
            Entry::Occupied(value) => value,
            Entry::Vacant(_) => panic!("the key has no value"),
        }
    }
}

impl<T> IndexMut<usize> for Slab<T> {
    #[inline]
    fn index_mut(&mut self, key: usize) -> &mut T {
        match &mut self.entries[key] {
            Entry::Occupied(value) => value,
            Entry::Vacant(_) => panic!("the key has no value"),
        }
    }
}

#[cfg(test)]
mod tests {
    use super::Slab;
    use plain_std::alloc::Global;

    #[test]
    fn the_key_that_was_removed_last_is_given_out_first() {
        let mut slab = Slab::new(Global);
        for value in 0..4 {
            assert_eq!(slab.insert(value).unwrap(), value);
        }
        assert_eq!((slab.remove(1), slab.remove(2), slab.len()), (1, 2, 2));
        assert_eq!((slab.get(1), slab.get(3)), (None, Some(&3)));
        let keys = [10, 11, 12].map(|value| slab.insert(value).unwrap());
        assert_eq!((keys, slab[2]), ([2, 1, 4], 10));
    }

    #[test]
    #[should_panic(expected = "no value")]
    fn a_vacant_key_has_no_value() {
        let mut slab = Slab::new(Global);
        slab.insert(1).unwrap();
        slab.remove(0);
        slab[0] = 2;
    }
}
