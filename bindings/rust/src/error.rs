//! What can go wrong.
use std::fmt;

/// An object, as errors name it: its kind, and how many of its kind were declared before it.
#[derive(Clone, Copy, PartialEq, Eq, Debug)]
pub struct Object {
    pub(crate) kind: u8,
    pub(crate) index: u32,
}

impl fmt::Display for Object {
    fn fmt(&self, f: &mut fmt::Formatter<'_>) -> fmt::Result {
        let kind = ["variable", "counter", "array", "table", "tree", "vector"][self.kind as usize];
        write!(f, "{kind} {}", self.index)
    }
}

/// A status of the library below, for what this crate cannot say better.
#[derive(Clone, Copy, PartialEq, Eq, Debug)]
pub struct Status(pub(crate) u32);

impl Status {
    /// Its number in `sto.h`.
    pub fn number(self) -> u32 {
        self.0
    }
}

impl fmt::Display for Status {
    fn fmt(&self, f: &mut fmt::Formatter<'_>) -> fmt::Result {
        let text = match self.0 {
            1 => "memory was wanting",
            2 => "the handle holds nothing",
            3 => "the handle to be filled holds something",
            4 => "the handle holds something else",
            5 => "no object has this number",
            6 => "the object does not take this call",
            7 => "the worker is in a transaction",
            8 => "the worker is in no transaction",
            9 => "the transaction met another one",
            10 => "busy",
            11 => "the worker has begun 2^40 transactions",
            12 => "no worker rests in the store",
            13 => "a store has from 1 to 65536 workers",
            14 => "no such kind of object",
            15 => "objects out of order",
            16 => "an object has no room, or is too large",
            17 => "the objects have 2^32 parts or more",
            18 => "too little room for the answer",
            19 => "workers are out",
            _ => "an unknown status",
        };
        write!(f, "{text} (status {})", self.0)
    }
}

impl std::error::Error for Status {}

/// Why a transaction, or the opening of a store, was not done. Nothing of it took effect.
#[derive(Clone, Copy, PartialEq, Eq, Debug)]
#[non_exhaustive]
pub enum Error {
    /// Memory was wanting.
    NoMemory,
    /// The policy's tries were used up, each of which met another transaction.
    Busy { tries: u32 },
    /// The policy's time was over: all tries met another transaction, or what the transaction waits for did not come.
    Timeout { tries: u32 },
    /// The transaction gave itself up, by [`Tx::cancel`](crate::Tx::cancel).
    Cancelled,
    /// `atomically` was called within a transaction.
    Nested,
    /// The store was opened before this process was forked.
    Forked,
    /// A table, tree or vector has no room.
    Full(Object),
    /// A sum is no number of 64 bits.
    Range(Object),
    /// An array or vector has no such place.
    NoPlace(Object, i64),
    /// The handle is one of another store.
    OtherStore(Object),
    /// The code answered a [`Stop`](crate::Stop) of another transaction.
    OtherStop,
    /// A number that a typed object holds is none of its type.
    BadValue(Object),
    /// There are no objects, or no workers, or one is too large.
    Shape(Status),
    /// The library below refused.
    Library(Status),
}

impl Error {
    pub(crate) fn of(status: u32) -> Error {
        match status {
            1 => Error::NoMemory,
            13..=17 => Error::Shape(Status(status)),
            _ => Error::Library(Status(status)),
        }
    }
}

impl fmt::Display for Error {
    fn fmt(&self, f: &mut fmt::Formatter<'_>) -> fmt::Result {
        match self {
            Error::NoMemory => write!(f, "memory was wanting"),
            Error::Busy { tries } => write!(f, "the transaction met others in each of {tries} tries"),
            Error::Timeout { tries } => write!(f, "the transaction's time was over, after {tries} tries"),
            Error::Cancelled => write!(f, "the transaction gave itself up"),
            Error::Nested => write!(f, "a transaction was begun within a transaction"),
            Error::Forked => write!(f, "the store was opened before this process was forked"),
            Error::Full(object) => write!(f, "{object} is full"),
            Error::Range(object) => write!(f, "a sum in {object} is no number of 64 bits"),
            Error::NoPlace(object, at) => write!(f, "{object} has no place {at}"),
            Error::OtherStore(object) => write!(f, "{object} is one of another store"),
            Error::OtherStop => write!(f, "the code answered the stop of another transaction"),
            Error::BadValue(object) => write!(f, "{object} holds a number that is none of its type"),
            Error::Shape(_) => write!(f, "there can be no such store"),
            Error::Library(_) => write!(f, "the library refused"),
        }
    }
}

impl std::error::Error for Error {
    fn source(&self) -> Option<&(dyn std::error::Error + 'static)> {
        match self {
            Error::Shape(status) | Error::Library(status) => Some(status),
            _ => None,
        }
    }
}

/// The transaction has stopped: what stopped it is kept by the transaction itself.
///
/// A `Stop` is only to be handed on, by `?`. It cannot be built, and tells nothing. Code that drops one changes nothing: the
/// transaction stays stopped, each later call in it answers a `Stop` again, and nothing that the code answers is given out.
#[must_use = "hand it on by `?`"]
pub struct Stop(pub(crate) ());

impl fmt::Debug for Stop {
    fn fmt(&self, f: &mut fmt::Formatter<'_>) -> fmt::Result {
        write!(f, "Stop")
    }
}

pub(crate) enum Ending<E> {
    Stopped,
    Gave(E),
}

/// How code under [`Store::try_atomically`](crate::Store::try_atomically) ends early: by a [`Stop`], or by an error of its own,
/// which gives the transaction up.
pub struct Halt<E>(pub(crate) Ending<E>);

impl<E> fmt::Debug for Halt<E> {
    fn fmt(&self, f: &mut fmt::Formatter<'_>) -> fmt::Result {
        write!(f, "Halt")
    }
}

impl<E> Halt<E> {
    /// Gives the transaction up, with this error.
    pub fn because(error: E) -> Halt<E> {
        Halt(Ending::Gave(error))
    }
}

impl<E> From<Stop> for Halt<E> {
    fn from(_: Stop) -> Halt<E> {
        Halt(Ending::Stopped)
    }
}

/// What [`Store::try_atomically`](crate::Store::try_atomically) answers where nothing took effect.
#[derive(Clone, Copy, PartialEq, Eq, Debug)]
pub enum Failed<E> {
    /// The code gave the transaction up, with its own error.
    Gave(E),
    /// The store could not do it.
    Store(Error),
}

impl<E> From<Error> for Failed<E> {
    fn from(error: Error) -> Failed<E> {
        Failed::Store(error)
    }
}

impl<E: fmt::Display> fmt::Display for Failed<E> {
    fn fmt(&self, f: &mut fmt::Formatter<'_>) -> fmt::Result {
        match self {
            Failed::Gave(error) => write!(f, "the transaction was given up: {error}"),
            Failed::Store(_) => write!(f, "the transaction was not done"),
        }
    }
}

impl<E: std::error::Error + 'static> std::error::Error for Failed<E> {
    fn source(&self) -> Option<&(dyn std::error::Error + 'static)> {
        match self {
            Failed::Gave(error) => Some(error),
            Failed::Store(error) => Some(error),
        }
    }
}
