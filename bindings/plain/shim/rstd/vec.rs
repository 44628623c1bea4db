use super::alloc::{AllocError, Global};
use std::ops::{Deref, DerefMut};

/// A list that the standard library sorts without asking for memory.
const SHORT: usize = 20;

/// A growing list.
#[derive(Clone, Debug, PartialEq, Eq)]
pub struct Vec<T>(std::vec::Vec<T>);

impl<T> Vec<T> {
    #[inline]
    pub fn new(_alloc: Global) -> Vec<T> {
        Vec(std::vec::Vec::new())
    }

    #[inline]
    pub fn with_capacity(_alloc: Global, room: usize) -> Result<Vec<T>, AllocError> {
        let mut list = std::vec::Vec::new();
        list.try_reserve_exact(room).map_err(|_| AllocError)?;
        Ok(Vec(list))
    }

    pub fn from_slice(alloc: Global, items: &[T]) -> Result<Vec<T>, AllocError>
    where
        T: Copy,
    {
        let mut list = Vec::with_capacity(alloc, items.len())?;
        list.0.extend_from_slice(items);
        Ok(list)
    }

    #[inline]
    pub fn push(&mut self, item: T) -> Result<(), AllocError> {
        self.0.try_reserve(1).map_err(|_| AllocError)?;
        self.0.push(item);
        Ok(())
    }

    /// Pushes where room was reserved.
    #[inline]
    pub fn push_reserved(&mut self, item: T) {
        assert!(self.0.len() < self.0.capacity(), "no room was reserved");
        self.0.push(item);
    }

    #[inline]
    pub fn reserve(&mut self, more: usize) -> Result<(), AllocError> {
        self.0.try_reserve(more).map_err(|_| AllocError)
    }

    #[inline]
    pub fn reserve_exact(&mut self, more: usize) -> Result<(), AllocError> {
        self.0.try_reserve_exact(more).map_err(|_| AllocError)
    }

    #[inline]
    pub fn as_slice(&self) -> &[T] {
        &self.0
    }

    #[inline]
    pub fn as_mut_slice(&mut self) -> &mut [T] {
        &mut self.0
    }

    #[inline]
    pub fn capacity(&self) -> usize {
        self.0.capacity()
    }

    #[inline]
    pub fn pop(&mut self) -> Option<T> {
        self.0.pop()
    }

    #[inline]
    pub fn remove(&mut self, at: usize) -> T {
        self.0.remove(at)
    }

    #[inline]
    pub fn clear(&mut self) {
        self.0.clear()
    }

    #[inline]
    pub fn truncate(&mut self, len: usize) {
        self.0.truncate(len)
    }

    #[inline]
    pub fn allocator(&self) -> &Global {
        &Global
    }

    pub fn insert(&mut self, at: usize, item: T) -> Result<(), (T, AllocError)> {
        match self.0.try_reserve(1) {
            Ok(()) => Ok(self.0.insert(at, item)),
            Err(_) => Err((item, AllocError)),
        }
    }

    pub fn append(&mut self, other: &mut Vec<T>) -> Result<(), AllocError> {
        self.reserve(other.len())?;
        self.0.append(&mut other.0);
        Ok(())
    }

    pub fn extend_from_slice(&mut self, items: &[T]) -> Result<(), AllocError>
    where
        T: Copy,
    {
        self.reserve(items.len())?;
        self.0.extend_from_slice(items);
        Ok(())
    }

    pub fn resize(&mut self, len: usize, item: T) -> Result<(), AllocError>
    where
        T: Copy,
    {
        self.reserve(len.saturating_sub(self.0.len()))?;
        self.0.resize(len, item);
        Ok(())
    }

    /// Sorts, and keeps the order of equals. (The standard library's own sort ends the program where memory for a longer list is wanting.)
    pub fn sort_by_key<K: Ord, F: FnMut(&T) -> K>(&mut self, mut key: F) -> Result<(), AllocError> {
        if self.0.len() <= SHORT {
            self.0.sort_by_key(key);
            return Ok(());
        }
        let mut order = std::vec::Vec::new();
        order.try_reserve_exact(self.0.len()).map_err(|_| AllocError)?;
        order.extend(self.0.iter().enumerate().map(|(at, item)| (key(item), at)));
        order.sort_unstable();
        self.follow(|at| order[at].1);
        Ok(())
    }

    /// Moves to each place what is to come there.
    fn follow(&mut self, from: impl Fn(usize) -> usize) {
        for at in 0..self.0.len() {
            // (what stood at a lower place was swapped to where this one came from)
            let mut now = from(at);
            while now < at {
                now = from(now);
            }
            self.0.swap(at, now);
        }
    }
}

impl<T> Deref for Vec<T> {
    type Target = [T];

    #[inline]
    fn deref(&self) -> &[T] {
        &self.0
    }
}

impl<T> DerefMut for Vec<T> {
    #[inline]
    fn deref_mut(&mut self) -> &mut [T] {
        &mut self.0
    }
}

impl<T> IntoIterator for Vec<T> {
    type Item = T;
    type IntoIter = std::vec::IntoIter<T>;

    #[inline]
    fn into_iter(self) -> Self::IntoIter {
        self.0.into_iter()
    }
}

impl<'a, T> IntoIterator for &'a Vec<T> {
    type Item = &'a T;
    type IntoIter = std::slice::Iter<'a, T>;

    #[inline]
    fn into_iter(self) -> Self::IntoIter {
        self.0.iter()
    }
}
