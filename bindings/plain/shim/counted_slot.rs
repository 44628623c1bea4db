//! Stands for the kit's slots: a place in which a value waits for one that takes it, by the turns of one atomic word.
use std::cell::UnsafeCell;
use std::mem;
use std::sync::atomic::{AtomicU64, Ordering::SeqCst};

pub const FREE: u64 = 0;
pub const PRESENT: u64 = 1;
pub const MARKED: u64 = 2;
pub const TAKEN: u64 = 3;
pub const ONE_READER: u64 = 4;

/// What may lie in a slot, with the tag that names the slot in contracts.
pub trait Fits {
    type Tag;
}

impl<X: Fits> Fits for Option<X> {
    type Tag = X::Tag;
}

pub struct Counted<X: Fits> {
    word: AtomicU64,
    value: UnsafeCell<X>,
}

unsafe impl<X: Fits + Send> Send for Counted<X> {}
unsafe impl<X: Fits + Send> Sync for Counted<X> {}

/// What a turn led to. Whose turn took the slot may change its value.
pub struct Claim<'a, X: Fits> {
    slot: &'a Counted<X>,
}

impl<X: Fits> Counted<X> {
    pub fn new(value: X, _tag: &X::Tag) -> Counted<X> {
        Counted { word: AtomicU64::new(FREE), value: UnsafeCell::new(value) }
    }

    pub fn load(&self) -> u64 {
        self.word.load(SeqCst)
    }

    /// Turns the word from the old to the new one where it is the old one, and answers what it was.
    pub fn turn(&self, old: u64, new: u64) -> (u64, Claim<'_, X>) {
        let found = match self.word.compare_exchange(old, new, SeqCst, SeqCst) {
            Ok(word) | Err(word) => word,
        };
        (found, Claim { slot: self })
    }
}

impl<'a, X: Fits> Claim<'a, X> {
    pub fn done(self) {}

    /// Puts a value in, opens the slot by a new word, and gives out the value that lay there.
    pub fn put(self, value: X, new: u64) -> X {
        let old = mem::replace(unsafe { &mut *self.slot.value.get() }, value);
        self.slot.word.store(new, SeqCst);
        old
    }
}
