use super::alloc::{AllocError, Global};
use std::hash::Hash;

/// A set of values, by their hashes.
pub struct HashSet<K>(std::collections::HashSet<K>);

impl<K: Hash + Eq> HashSet<K> {
    pub fn new(_alloc: Global) -> HashSet<K> {
        HashSet(std::collections::HashSet::new())
    }

    pub fn of_items(alloc: Global, items: &[K]) -> Result<HashSet<K>, AllocError>
    where
        K: Copy,
    {
        let mut set = HashSet::new(alloc);
        for item in items {
            set.insert(*item)?;
        }
        Ok(set)
    }

    pub fn contains(&self, key: &K) -> bool {
        self.0.contains(key)
    }

    pub fn insert(&mut self, key: K) -> Result<bool, AllocError> {
        self.0.try_reserve(1).map_err(|_| AllocError)?;
        Ok(self.0.insert(key))
    }
}

/// A map of values, by the hashes of their keys.
pub struct HashMap<K, V>(std::collections::HashMap<K, V>);

impl<K: Hash + Eq, V> HashMap<K, V> {
    pub fn new(_alloc: Global) -> HashMap<K, V> {
        HashMap(std::collections::HashMap::new())
    }

    #[inline]
    pub fn len(&self) -> usize {
        self.0.len()
    }

    #[inline]
    pub fn get(&self, key: &K) -> Option<&V> {
        self.0.get(key)
    }

    #[inline]
    pub fn get_mut(&mut self, key: &K) -> Option<&mut V> {
        self.0.get_mut(key)
    }

    #[inline]
    pub fn contains_key(&self, key: &K) -> bool {
        self.0.contains_key(key)
    }

    pub fn insert(&mut self, key: K, value: V) -> Result<Option<V>, AllocError> {
        self.0.try_reserve(1).map_err(|_| AllocError)?;
        Ok(self.0.insert(key, value))
    }
}

/// A list in which only the prover's copies lie.
pub struct LinkedList<T>(std::marker::PhantomData<T>);
