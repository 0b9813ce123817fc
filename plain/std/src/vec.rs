//! `Vec`, where a call that finds no memory returns an error.

use crate::alloc::{AllocError, AllocFailed, Global};
use crate::io;
use std::fmt;
use std::ops::{Deref, DerefMut, RangeBounds};
use std::slice::{Iter, IterMut, SliceIndex};
use std::vec::{Drain, IntoIter};

type Std<T> = std::vec::Vec<T>;

/// A list that grows.
#[derive(PartialEq, Eq, PartialOrd, Ord, Hash)]
#[repr(transparent)]
pub struct Vec<T>(pub Std<T>);

impl<T> Vec<T> {
    /// Returns an empty list, which takes no memory.
    #[inline]
    pub fn new(_alloc: Global) -> Vec<T> {
        Vec(Std::new())
    }

    /// Returns an empty list with room for `capacity` items.
    #[inline]
    pub fn with_capacity(_alloc: Global, capacity: usize) -> Result<Vec<T>, AllocError> {
        let mut items = Std::new();
        items.try_reserve_exact(capacity)?;
        Ok(Vec(items))
    }

    /// Returns a list of these items. This is `vec!` with the items written out.
    pub fn from_array<const N: usize>(alloc: Global, items: [T; N]) -> Result<Vec<T>, AllocError> {
        let mut list = Vec::with_capacity(alloc, N)?;
        list.0.extend(items);
        Ok(list)
    }

    /// Appends an item. If memory runs out, the item is given back.
    #[inline]
    pub fn push(&mut self, value: T) -> Result<(), AllocFailed<T>> {
        if self.0.len() == self.0.capacity() && self.0.try_reserve(1).is_err() {
            return Err(AllocFailed { value });
        }
        self.0.push(value);
        Ok(())
    }

    /// Appends an item where there is room, which the caller has reserved.
    #[inline]
    pub fn push_reserved(&mut self, value: T) {
        self.0.push(value);
    }

    /// Puts an item at an index. If memory runs out, the item is given back.
    pub fn insert(&mut self, index: usize, value: T) -> Result<(), AllocFailed<T>> {
        if self.0.try_reserve(1).is_err() {
            return Err(AllocFailed { value });
        }
        self.0.insert(index, value);
        Ok(())
    }

    /// Makes room for more items.
    #[inline]
    pub fn reserve(&mut self, additional: usize) -> Result<(), AllocError> {
        Ok(self.0.try_reserve(additional)?)
    }

    /// Makes room for more items, and for no others.
    pub fn reserve_exact(&mut self, additional: usize) -> Result<(), AllocError> {
        Ok(self.0.try_reserve_exact(additional)?)
    }

    /// Moves all items of another list to the end of this one.
    pub fn append(&mut self, other: &mut Vec<T>) -> Result<(), AllocError> {
        self.0.try_reserve(other.0.len())?;
        self.0.append(&mut other.0);
        Ok(())
    }

    /// Returns how many items there are.
    #[inline]
    pub fn len(&self) -> usize {
        self.0.len()
    }

    /// Returns whether there are no items.
    #[inline]
    pub fn is_empty(&self) -> bool {
        self.0.is_empty()
    }

    /// Returns for how many items there is room.
    pub fn capacity(&self) -> usize {
        self.0.capacity()
    }

    /// Removes the last item.
    #[inline]
    pub fn pop(&mut self) -> Option<T> {
        self.0.pop()
    }

    /// Drops all items from an index on.
    pub fn truncate(&mut self, len: usize) {
        self.0.truncate(len);
    }

    /// Drops all items.
    pub fn clear(&mut self) {
        self.0.clear();
    }

    /// Removes the item at an index, and moves those after it down.
    pub fn remove(&mut self, index: usize) -> T {
        self.0.remove(index)
    }

    /// Removes the item at an index, and puts the last one there.
    pub fn swap_remove(&mut self, index: usize) -> T {
        self.0.swap_remove(index)
    }

    /// Drops the items for which `keep` is `false`.
    pub fn retain<F: FnMut(&T) -> bool>(&mut self, keep: F) {
        self.0.retain(keep);
    }

    /// Removes a range of items.
    pub fn drain<R: RangeBounds<usize>>(&mut self, range: R) -> Drain<'_, T> {
        self.0.drain(range)
    }

    /// Drops each item that equals the one before it.
    pub fn dedup(&mut self)
    where
        T: PartialEq,
    {
        self.0.dedup();
    }

    /// Drops each item that is the same as the one before it.
    pub fn dedup_by<F: FnMut(&mut T, &mut T) -> bool>(&mut self, same: F) {
        self.0.dedup_by(same);
    }

    /// Returns the items.
    #[inline]
    pub fn as_slice(&self) -> &[T] {
        &self.0
    }

    /// Returns the items.
    #[inline]
    pub fn as_mut_slice(&mut self) -> &mut [T] {
        &mut self.0
    }

    /// Returns a range of the items.
    pub fn slice_mut<R: SliceIndex<[T], Output = [T]>>(&mut self, range: R) -> &mut [T] {
        &mut self.0[range]
    }

    /// Returns the allocator.
    pub fn allocator(&self) -> &Global {
        &Global
    }
}

/// The calls that copy items. A copy that needs memory of its own is made by `TryClone`.
impl<T: Clone> Vec<T> {
    /// Returns a list of copies.
    pub fn from_slice(alloc: Global, items: &[T]) -> Result<Vec<T>, AllocError> {
        let mut list = Vec::with_capacity(alloc, items.len())?;
        list.0.extend_from_slice(items);
        Ok(list)
    }

    /// Returns a list of one item many times. This is `vec!` with an item and a count.
    pub fn from_elem(alloc: Global, item: T, count: usize) -> Result<Vec<T>, AllocError> {
        let mut list = Vec::with_capacity(alloc, count)?;
        list.0.resize(count, item);
        Ok(list)
    }

    /// Appends copies.
    #[inline]
    pub fn extend_from_slice(&mut self, items: &[T]) -> Result<(), AllocError> {
        self.0.try_reserve(items.len())?;
        self.0.extend_from_slice(items);
        Ok(())
    }

    /// Appends copies of an item, or drops items, until there are `len`.
    pub fn resize(&mut self, len: usize, item: T) -> Result<(), AllocError> {
        self.0.try_reserve(len.saturating_sub(self.0.len()))?;
        self.0.resize(len, item);
        Ok(())
    }
}

impl<T: fmt::Debug> fmt::Debug for Vec<T> {
    fn fmt(&self, f: &mut fmt::Formatter<'_>) -> fmt::Result {
        self.0.fmt(f)
    }
}

impl<T> Deref for Vec<T> {
    type Target = [T];

    #[inline]
    fn deref(&self) -> &[T] {
        &self.0
    }
}

impl<T> DerefMut for Vec<T> {
    #[inline]
    fn deref_mut(&mut self) -> &mut [T] {
        &mut self.0
    }
}

impl<T> AsRef<[T]> for Vec<T> {
    fn as_ref(&self) -> &[T] {
        &self.0
    }
}

impl<T> IntoIterator for Vec<T> {
    type Item = T;
    type IntoIter = IntoIter<T>;

    fn into_iter(self) -> IntoIter<T> {
        self.0.into_iter()
    }
}

impl<'a, T> IntoIterator for &'a Vec<T> {
    type Item = &'a T;
    type IntoIter = Iter<'a, T>;

    fn into_iter(self) -> Iter<'a, T> {
        self.0.iter()
    }
}

impl<'a, T> IntoIterator for &'a mut Vec<T> {
    type Item = &'a mut T;
    type IntoIter = IterMut<'a, T>;

    fn into_iter(self) -> IterMut<'a, T> {
        self.0.iter_mut()
    }
}

impl io::Write for Vec<u8> {
    fn write(&mut self, bytes: &[u8]) -> io::Result<usize> {
        self.extend_from_slice(bytes)?;
        Ok(bytes.len())
    }

    fn flush(&mut self) -> io::Result<()> {
        Ok(())
    }
}

#[cfg(test)]
mod tests {
    use super::Vec;
    use crate::alloc::{AllocError, Global};

    #[test]
    fn more_room_than_there_is_memory_is_an_error() {
        assert_eq!(
            Vec::<u64>::with_capacity(Global, usize::MAX / 16).err(),
            Some(AllocError)
        );
        let mut list = Vec::from_array(Global, [1u8, 2]).unwrap();
        assert_eq!(list.reserve(usize::MAX), Err(AllocError));
        assert_eq!(list.as_slice(), [1, 2]);
    }

    #[test]
    fn items_are_put_and_taken() {
        let mut list = Vec::from_elem(Global, 7, 3).unwrap();
        list.push(8).unwrap();
        list.insert(1, 9).unwrap();
        assert_eq!(list.as_slice(), [7, 9, 7, 7, 8]);
        assert_eq!(
            (list.remove(1), list.swap_remove(0), list.pop()),
            (9, 7, Some(7))
        );
        assert_eq!(list.as_slice(), [8, 7]);
        list.resize(4, 1).unwrap();
        list.slice_mut(..2).fill(0);
        assert_eq!(list.as_slice(), [0, 0, 1, 1]);
    }
}
