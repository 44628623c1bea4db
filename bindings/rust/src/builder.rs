//! What a store is to hold, before it is opened.
use crate::error::{Error, Object};
use crate::inner::Inner;
use crate::objects::{self, Array, Counter, Id, Key, TVar, Table, Tree, Vector, Word};
use crate::raw;
use crate::run::Policy;
use crate::store::Store;
use std::sync::atomic::{AtomicU64, Ordering::Relaxed};

/// Declares the objects of a store, in any order, and opens it.
#[derive(Debug)]
#[must_use = "a builder opens no store by itself"]
pub struct Builder {
    id: u64,
    shapes: [Vec<raw::Shape>; 6],
    workers: Option<u32>,
    policy: Policy,
}

static STORES: AtomicU64 = AtomicU64::new(0);

fn size(of: usize) -> u32 {
    u32::try_from(of).unwrap_or(u32::MAX)
}

/// (a tree's leaf has four keys; a bucket of sixteen places for each four keys is full next to never)
fn quarter(keys: usize) -> u32 {
    size(keys / 4 + usize::from(keys % 4 > 0)).max(1)
}

impl Builder {
    pub(crate) fn new() -> Builder {
        Builder { id: STORES.fetch_add(1, Relaxed), shapes: Default::default(), workers: None, policy: Policy::default() }
    }

    fn declare(&mut self, kind: u8, size: u32, places: u32, value: i64) -> Id {
        let of_kind = &mut self.shapes[kind as usize];
        let index = u32::try_from(of_kind.len()).unwrap_or(u32::MAX);
        of_kind.push(raw::Shape { kind: kind.into(), size, places, unused: 0, value });
        Id { store: self.id, object: Object { kind, index } }
    }

    /// A variable that begins with this value.
    pub fn var<T: Word>(&mut self, value: T) -> TVar<T> {
        TVar::of(self.declare(objects::VAR, 0, 0, value.to_word()))
    }

    /// A counter that begins with this value.
    pub fn counter(&mut self, value: i64) -> Counter {
        Counter::of(self.declare(objects::COUNTER, 0, 0, value))
    }

    /// An array of so many places, each of which begins with this value.
    pub fn array<T: Word>(&mut self, len: usize, value: T) -> Array<T> {
        Array::of(self.declare(objects::ARRAY, size(len), 0, value.to_word()))
    }

    /// A table with room for about so many keys; it does not grow.
    pub fn table<K: Key, V: Word>(&mut self, keys: usize) -> Table<K, V> {
        Table::of(self.declare(objects::TABLE, quarter(keys), 16, 0))
    }

    /// A table of so many buckets, with room for so many keys each.
    pub fn table_of<K: Key, V: Word>(&mut self, buckets: usize, places: usize) -> Table<K, V> {
        Table::of(self.declare(objects::TABLE, size(buckets), size(places), 0))
    }

    /// A tree with room for so many keys. A call takes time by how many keys it has room for, so a tree is for some hundreds.
    pub fn tree<K: Key, V: Word>(&mut self, keys: usize) -> Tree<K, V> {
        Tree::of(self.declare(objects::TREE, quarter(keys), 0, 0))
    }

    /// An empty vector with room for so many values.
    pub fn vector<T: Word>(&mut self, room: usize) -> Vector<T> {
        Vector::of(self.declare(objects::VECTOR, size(room), 0, 0))
    }

    /// How many transactions can run at the same moment; more threads than that wait for one another. Without this call: twice
    /// as many as there are processors, and at least four.
    pub fn workers(mut self, workers: u32) -> Builder {
        self.workers = Some(workers);
        self
    }

    /// What [`Store::atomically`] does about transactions that meet others.
    pub fn policy(mut self, policy: Policy) -> Builder {
        self.policy = policy;
        self
    }

    /// Opens the store.
    pub fn open(self) -> Result<Store, Error> {
        let workers = self.workers.unwrap_or_else(|| {
            let processors = std::thread::available_parallelism().map_or(4, |it| it.get());
            u32::try_from(2 * processors).unwrap_or(64).max(4).min(1024)
        });
        let mut bases = [0u32; 6];
        let mut all = Vec::new();
        for (base, of_kind) in bases.iter_mut().zip(&self.shapes) {
            *base = size(all.len());
            all.extend_from_slice(of_kind);
        }
        Ok(Store::of(Inner::open(self.id, bases, &all, workers, self.policy)?))
    }
}
