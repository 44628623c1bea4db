//! Typed handles.
use crate::error::{Error, Object, Stop};
use crate::raw;
use crate::run::Tx;
use std::marker::PhantomData;
use std::ops::{Bound, RangeBounds};

mod sealed {
    pub trait Sealed {}
}

/// What an object can hold: a number or a small value that fits into 64 bits.
pub trait Word: Copy + sealed::Sealed {
    #[doc(hidden)]
    fn to_word(self) -> i64;
    #[doc(hidden)]
    fn of_word(word: i64) -> Option<Self>;
}

/// A `Word` that orders as its number does, so that it can be a key of a tree.
pub trait Key: Word + Ord {}

macro_rules! words {
    ($($t:ty),*) => {$(
        impl sealed::Sealed for $t {}
        impl Word for $t {
            fn to_word(self) -> i64 { self as i64 }
            fn of_word(word: i64) -> Option<$t> { <$t>::try_from(word).ok() }
        }
        impl Key for $t {}
    )*};
}
words!(i8, i16, i32, i64, u8, u16, u32, isize);

macro_rules! wide {
    ($($t:ty),*) => {$(
        impl sealed::Sealed for $t {}
        impl Word for $t {
            // the order of the numbers stays
            fn to_word(self) -> i64 { (self as u64 ^ 1 << 63) as i64 }
            fn of_word(word: i64) -> Option<$t> { <$t>::try_from(word as u64 ^ 1 << 63).ok() }
        }
        impl Key for $t {}
    )*};
}
wide!(u64, usize);

impl sealed::Sealed for bool {}
impl Word for bool {
    fn to_word(self) -> i64 { self.into() }
    fn of_word(word: i64) -> Option<bool> { [false, true].get(usize::try_from(word).ok()?).copied() }
}
impl Key for bool {}

impl sealed::Sealed for char {}
impl Word for char {
    fn to_word(self) -> i64 { u32::from(self).into() }
    fn of_word(word: i64) -> Option<char> { char::from_u32(word.try_into().ok()?) }
}
impl Key for char {}

impl sealed::Sealed for f64 {}
impl Word for f64 {
    fn to_word(self) -> i64 { self.to_bits() as i64 }
    fn of_word(word: i64) -> Option<f64> { Some(f64::from_bits(word as u64)) }
}

pub(crate) const VAR: u8 = 0;
pub(crate) const COUNTER: u8 = 1;
pub(crate) const ARRAY: u8 = 2;
pub(crate) const TABLE: u8 = 3;
pub(crate) const TREE: u8 = 4;
pub(crate) const VECTOR: u8 = 5;

#[derive(Clone, Copy, PartialEq, Eq, Debug)]
pub(crate) struct Id {
    pub(crate) store: u64,
    pub(crate) object: Object,
}

macro_rules! handle {
    ($(#[$doc:meta])* $name:ident<$($p:ident),*>) => {
        $(#[$doc])*
        pub struct $name<$($p),*> { pub(crate) id: Id, pub(crate) holds: PhantomData<fn() -> ($($p,)*)> }
        impl<$($p),*> $name<$($p),*> { pub(crate) fn of(id: Id) -> Self { $name { id, holds: PhantomData } } }
        impl<$($p),*> Clone for $name<$($p),*> { fn clone(&self) -> Self { *self } }
        impl<$($p),*> Copy for $name<$($p),*> {}
        impl<$($p),*> std::fmt::Debug for $name<$($p),*> {
            fn fmt(&self, f: &mut std::fmt::Formatter<'_>) -> std::fmt::Result { write!(f, "{}", self.id.object) }
        }
    };
}

handle!(/// A variable: one value.
    TVar<T>);
handle!(/// A number that many transactions add to at once.
    Counter<>);
handle!(/// A fixed number of values, by their places.
    Array<T>);
handle!(/// Keys with values, in no order.
    Table<K, V>);
handle!(/// Keys with values, in the order of the keys.
    Tree<K, V>);
handle!(/// Values, one behind the other.
    Vector<T>);

/// A table, tree or vector had no room, and nothing changed.
#[must_use]
#[derive(Clone, Copy, PartialEq, Eq, Debug)]
pub struct NoRoom;

impl std::fmt::Display for NoRoom {
    fn fmt(&self, f: &mut std::fmt::Formatter<'_>) -> std::fmt::Result { write!(f, "there is no room") }
}

impl std::error::Error for NoRoom {}

fn held<T: Word>(tx: &mut Tx<'_>, id: Id, word: i64) -> Result<T, Stop> {
    T::of_word(word).ok_or_else(|| tx.stop(Error::BadValue(id.object)))
}

impl<T: Word> TVar<T> {
    /// Its value.
    #[inline]
    pub fn get(&self, tx: &mut Tx<'_>) -> Result<T, Stop> {
        let reply = tx.ask(self.id, raw::GET, [])?;
        held(tx, self.id, reply.value)
    }

    /// Sets it.
    #[inline]
    pub fn set(&self, tx: &mut Tx<'_>, value: T) -> Result<(), Stop> {
        tx.ask(self.id, raw::SET, [value.to_word()]).map(drop)
    }

    /// Changes it.
    #[inline]
    pub fn update(&self, tx: &mut Tx<'_>, change: impl FnOnce(T) -> T) -> Result<T, Stop> {
        let value = change(self.get(tx)?);
        self.set(tx, value)?;
        Ok(value)
    }
}

impl Counter {
    /// Its value.
    pub fn get(&self, tx: &mut Tx<'_>) -> Result<i64, Stop> {
        Ok(tx.ask(self.id, raw::GET, [])?.value)
    }

    /// Adds to it. Where the sum is no number of 64 bits the transaction ends by [`Error::Range`].
    pub fn add(&self, tx: &mut Tx<'_>, delta: i64) -> Result<(), Stop> {
        match tx.ask(self.id, raw::ADD, [delta])?.answer {
            raw::RANGE => Err(tx.stop(Error::Range(self.id.object))),
            _ => Ok(()),
        }
    }

    /// Takes from it where it has as much, and answers whether it had.
    pub fn take(&self, tx: &mut Tx<'_>, amount: i64) -> Result<Taken, Stop> {
        let reply = tx.ask(self.id, raw::TAKE, [amount])?;
        match reply.answer {
            raw::RANGE => Err(tx.stop(Error::Range(self.id.object))),
            _ => Ok(Taken(reply.value != 0)),
        }
    }

    /// Whether it is at least so much. Other transactions may change it meanwhile, as long as the answer stays.
    pub fn at_least(&self, tx: &mut Tx<'_>, amount: i64) -> Result<bool, Stop> {
        Ok(tx.ask(self.id, raw::TEST, [5, amount])?.value != 0)
    }
}

/// Whether a counter had what was to be taken.
#[must_use = "where it is not so, nothing was taken"]
#[derive(Clone, Copy, PartialEq, Eq, Debug)]
pub struct Taken(bool);

impl Taken {
    pub fn yes(self) -> bool {
        self.0
    }
}

impl<T: Word> Array<T> {
    fn place(at: usize) -> i64 {
        i64::try_from(at).unwrap_or(i64::MAX)
    }

    /// The value at a place. Where there is no such place the transaction ends by [`Error::NoPlace`].
    pub fn get(&self, tx: &mut Tx<'_>, at: usize) -> Result<T, Stop> {
        let reply = tx.ask(self.id, raw::GET, [Self::place(at)])?;
        match reply.answer {
            raw::ABSENT => Err(tx.stop(Error::NoPlace(self.id.object, Self::place(at)))),
            _ => held(tx, self.id, reply.value),
        }
    }

    /// Sets a place. Where there is no such place the transaction ends by [`Error::NoPlace`].
    pub fn set(&self, tx: &mut Tx<'_>, at: usize, value: T) -> Result<(), Stop> {
        match tx.ask(self.id, raw::SET, [Self::place(at), value.to_word()])?.answer {
            raw::ABSENT => Err(tx.stop(Error::NoPlace(self.id.object, Self::place(at)))),
            _ => Ok(()),
        }
    }
}

impl Array<i64> {
    /// Adds to a place.
    pub fn add(&self, tx: &mut Tx<'_>, at: usize, delta: i64) -> Result<(), Stop> {
        match tx.ask(self.id, raw::ADD, [Self::place(at), delta])?.answer {
            raw::ABSENT => Err(tx.stop(Error::NoPlace(self.id.object, Self::place(at)))),
            raw::RANGE => Err(tx.stop(Error::Range(self.id.object))),
            _ => Ok(()),
        }
    }
}

/// A hash table finds a key's bucket by the remainder, so that keys in steps would crowd few: keys are mixed, one to one.
pub(crate) fn mixed(key: i64) -> i64 {
    let mut x = key as u64;
    x = (x ^ x >> 32).wrapping_mul(0x9E37_79B9_7F4A_7C15);
    (x ^ x >> 32) as i64
}

pub(crate) fn unmixed(key: i64) -> i64 {
    let mut x = key as u64;
    x = (x ^ x >> 32).wrapping_mul(0xF1DE_83E1_9937_733D);
    (x ^ x >> 32) as i64
}

macro_rules! keyed {
    ($name:ident, $key:ident, $mix:expr) => {
        impl<K: $key, V: Word> $name<K, V> {
            fn word(key: K) -> i64 {
                $mix(key.to_word())
            }

            /// The value of a key.
            pub fn get(&self, tx: &mut Tx<'_>, key: K) -> Result<Option<V>, Stop> {
                let reply = tx.ask(self.id, raw::GET, [Self::word(key)])?;
                match reply.answer {
                    raw::ABSENT => Ok(None),
                    _ => held(tx, self.id, reply.value).map(Some),
                }
            }

            /// Puts a key with a value. Where there is no room the transaction ends by [`Error::Full`].
            pub fn put(&self, tx: &mut Tx<'_>, key: K, value: V) -> Result<(), Stop> {
                match self.try_put(tx, key, value)? {
                    Ok(()) => Ok(()),
                    Err(NoRoom) => Err(tx.stop(Error::Full(self.id.object))),
                }
            }

            /// Puts a key with a value where there is room.
            pub fn try_put(&self, tx: &mut Tx<'_>, key: K, value: V) -> Result<Result<(), NoRoom>, Stop> {
                match tx.ask(self.id, raw::PUT, [Self::word(key), value.to_word()])?.answer {
                    raw::FULL => Ok(Err(NoRoom)),
                    _ => Ok(Ok(())),
                }
            }

            /// Removes a key, and answers whether it was there.
            pub fn remove(&self, tx: &mut Tx<'_>, key: K) -> Result<bool, Stop> {
                Ok(tx.ask(self.id, raw::REMOVE, [Self::word(key)])?.value != 0)
            }

            /// How many keys there are.
            pub fn len(&self, tx: &mut Tx<'_>) -> Result<usize, Stop> {
                Ok(tx.ask(self.id, raw::LEN, [])?.value as usize)
            }
        }
    };
}

keyed!(Table, Key, mixed);
keyed!(Tree, Key, std::convert::identity);

impl<K: Key, V: Word> Table<K, V> {
    /// Whether a key is there.
    pub fn has(&self, tx: &mut Tx<'_>, key: K) -> Result<bool, Stop> {
        Ok(tx.ask(self.id, raw::HAS, [Self::word(key)])?.value != 0)
    }
}

impl<K: Key, V: Word> Tree<K, V> {
    fn bounds(range: impl RangeBounds<K>) -> Option<(i64, i64)> {
        let low = match range.start_bound() {
            Bound::Included(key) => key.to_word(),
            Bound::Excluded(key) => key.to_word().checked_add(1)?,
            Bound::Unbounded => i64::MIN,
        };
        let high = match range.end_bound() {
            Bound::Included(key) => key.to_word(),
            Bound::Excluded(key) => key.to_word().checked_sub(1)?,
            Bound::Unbounded => i64::MAX,
        };
        (low <= high).then_some((low, high))
    }

    /// The least key that is at least this one.
    pub fn next(&self, tx: &mut Tx<'_>, key: K) -> Result<Option<K>, Stop> {
        let reply = tx.ask(self.id, raw::NEXT, [key.to_word()])?;
        match reply.answer {
            raw::ABSENT => Ok(None),
            _ => held(tx, self.id, reply.value).map(Some),
        }
    }

    /// How many keys are in a range.
    pub fn count(&self, tx: &mut Tx<'_>, range: impl RangeBounds<K>) -> Result<usize, Stop> {
        match Self::bounds(range) {
            None => tx.alive().map(|()| 0),
            Some((low, high)) => Ok(tx.ask(self.id, raw::COUNT, [low, high])?.value as usize),
        }
    }

    /// The keys of a range with their values, in order.
    pub fn range(&self, tx: &mut Tx<'_>, range: impl RangeBounds<K>) -> Result<Vec<(K, V)>, Stop> {
        let (low, high) = match Self::bounds(range) {
            Some(bounds) => bounds,
            None => return tx.alive().map(|()| Vec::new()),
        };
        let many = tx.ask(self.id, raw::SCAN, [low, high])?.value as usize;
        let pairs = tx.pairs(many)?;
        self.held_pairs(tx, pairs)
    }

    /// The first keys from this one on with their values, at most `limit`. Where they are fewer, there are no more. The transaction has
    /// read no key beyond them.
    pub fn walk(&self, tx: &mut Tx<'_>, from: K, limit: usize) -> Result<Vec<(K, V)>, Stop> {
        let pairs = tx.walk(self.id, from.to_word(), limit)?;
        self.held_pairs(tx, pairs)
    }

    fn held_pairs(&self, tx: &mut Tx<'_>, pairs: Vec<raw::Pair>) -> Result<Vec<(K, V)>, Stop> {
        pairs.into_iter().map(|it| Ok((held(tx, self.id, it.key)?, held(tx, self.id, it.value)?))).collect()
    }
}

impl<T: Word> Vector<T> {
    /// The value at a place, where there is one.
    pub fn get(&self, tx: &mut Tx<'_>, at: usize) -> Result<Option<T>, Stop> {
        let reply = tx.ask(self.id, raw::GET, [i64::try_from(at).unwrap_or(i64::MAX)])?;
        match reply.answer {
            raw::ABSENT => Ok(None),
            _ => held(tx, self.id, reply.value).map(Some),
        }
    }

    /// Puts a value behind the others. Where there is no room the transaction ends by [`Error::Full`].
    pub fn push(&self, tx: &mut Tx<'_>, value: T) -> Result<(), Stop> {
        match self.try_push(tx, value)? {
            Ok(()) => Ok(()),
            Err(NoRoom) => Err(tx.stop(Error::Full(self.id.object))),
        }
    }

    /// Puts a value behind the others where there is room.
    pub fn try_push(&self, tx: &mut Tx<'_>, value: T) -> Result<Result<(), NoRoom>, Stop> {
        match tx.ask(self.id, raw::PUSH, [value.to_word()])?.answer {
            raw::FULL => Ok(Err(NoRoom)),
            _ => Ok(Ok(())),
        }
    }

    /// Takes the last value.
    pub fn pop(&self, tx: &mut Tx<'_>) -> Result<Option<T>, Stop> {
        let reply = tx.ask(self.id, raw::POP, [])?;
        match reply.answer {
            raw::ABSENT => Ok(None),
            _ => held(tx, self.id, reply.value).map(Some),
        }
    }

    /// How many values there are.
    pub fn len(&self, tx: &mut Tx<'_>) -> Result<usize, Stop> {
        Ok(tx.ask(self.id, raw::LEN, [])?.value as usize)
    }
}
