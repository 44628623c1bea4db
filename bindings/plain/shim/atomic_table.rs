//! Stands for the kit's tables of shared words, on which each operation is one atomic access.
use crate::plain::rstd::alloc::{AllocError, Global};
use std::marker::PhantomData;
use std::sync::atomic::{AtomicU64, Ordering::SeqCst};

/// Which view of the words a thread has, in contracts.
pub struct Seat<S, V>(PhantomData<(S, V)>);

unsafe impl<S, V> Send for Seat<S, V> {}
unsafe impl<S, V> Sync for Seat<S, V> {}

pub struct Shared<S, V, K, P> {
    words: Box<[AtomicU64]>,
    rule: PhantomData<(S, V, K, P)>,
}

unsafe impl<S, V, K, P> Send for Shared<S, V, K, P> {}
unsafe impl<S, V, K, P> Sync for Shared<S, V, K, P> {}

pub struct Table<S, V, K, P, A> {
    pub shared: Shared<S, V, K, P>,
    allocator: PhantomData<A>,
}

pub struct Closed<S, A> {
    words: Box<[AtomicU64]>,
    rule: PhantomData<(S, A)>,
}

pub trait TableRule<S, V, K> {}
pub trait Play<S, V> {}
pub trait Split<V> {}
pub trait Join<V> {}

impl<S, V, K, P: TableRule<S, V, K>, A> Table<S, V, K, P, A> {
    pub fn of_words(_alloc: A, first: &[u64], _known: &K) -> Result<(Self, Seat<S, V>), AllocError> {
        let mut words = Vec::new();
        words.try_reserve_exact(first.len()).map_err(|_| AllocError)?;
        words.extend(first.iter().map(|word| AtomicU64::new(*word)));
        let shared = Shared { words: words.into_boxed_slice(), rule: PhantomData };
        Ok((Table { shared, allocator: PhantomData }, Seat(PhantomData)))
    }

    pub fn close_with(self, _seat: Seat<S, V>) -> Closed<S, A> {
        Closed { words: self.shared.words, rule: PhantomData }
    }
}

impl<S, A> Closed<S, A> {
    pub fn word(&self, at: usize) -> u64 {
        self.words[at].load(SeqCst)
    }

    pub fn free(self) {}
}

impl<S, V, K, P> Shared<S, V, K, P> {
    #[inline]
    pub fn load<J: Play<S, V>>(&self, _seat: &mut Seat<S, V>, at: usize) -> u64 {
        self.words[at].load(SeqCst)
    }

    #[inline]
    pub fn store<J: Play<S, V>>(&self, _seat: &mut Seat<S, V>, at: usize, word: u64) {
        self.words[at].store(word, SeqCst)
    }

    #[inline]
    pub fn fetch_or<J: Play<S, V>>(&self, _seat: &mut Seat<S, V>, at: usize, bits: u64) -> u64 {
        self.words[at].fetch_or(bits, SeqCst)
    }

    #[inline]
    pub fn fetch_and<J: Play<S, V>>(&self, _seat: &mut Seat<S, V>, at: usize, bits: u64) -> u64 {
        self.words[at].fetch_and(bits, SeqCst)
    }

    #[inline]
    pub fn fetch_add<J: Play<S, V>>(&self, _seat: &mut Seat<S, V>, at: usize, more: u64) -> u64 {
        self.words[at].fetch_add(more, SeqCst)
    }

    pub fn split_seat<J: Split<V>>(&self, _seat: &mut Seat<S, V>) -> Seat<S, V> {
        Seat(PhantomData)
    }

    pub fn join_seat<J: Join<V>>(&self, _seat: &mut Seat<S, V>, _other: Seat<S, V>) {}
}
