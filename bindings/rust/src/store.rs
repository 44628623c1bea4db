//! The store, and what it held when it was closed.
use crate::builder::Builder;
use crate::error::{Error, Failed, Halt, Status, Stop};
use crate::inner::Inner;
use crate::objects::{self, Array, Counter, Id, Key, TVar, Table, Tree, Vector, Word};
use crate::raw;
use crate::run::{Policy, Run, Tx};
use std::convert::Infallible;
use std::fmt;
use std::sync::atomic::Ordering::Relaxed;
use std::sync::Arc;

/// What a store has done so far. The tries are the commits, the aborts, the retries and those given up, as long as none is under way.
#[derive(Clone, Copy, PartialEq, Eq, Default, Debug)]
#[non_exhaustive]
pub struct Stats {
    /// Transactions that took effect.
    pub commits: u64,
    /// Tries, of whatever end.
    pub tries: u64,
    /// Tries that met another transaction in a call.
    pub aborts_in_calls: u64,
    /// Tries that met another transaction at their commit.
    pub aborts_at_commit: u64,
    /// Tries that ended by [`Tx::retry`].
    pub retries: u64,
    /// Tries after which the transaction was not done: by an error, or a panic.
    pub given_up: u64,
    /// Transactions that used their tries up, and went on alone.
    pub alone: u64,
}

/// A store of objects. A clone is the same store; it goes to any thread.
///
/// Each transaction takes a worker of the store and gives it back, also where its code panics.
#[derive(Clone)]
pub struct Store(Arc<Inner>);

impl fmt::Debug for Store {
    fn fmt(&self, f: &mut fmt::Formatter<'_>) -> fmt::Result {
        f.debug_struct("Store").field("workers", &self.0.slots.len()).field("stats", &self.stats()).finish()
    }
}

/// A store under a policy of its own: what [`Store::with`] answers.
#[derive(Clone, Copy, Debug)]
#[must_use]
pub struct With<'s> {
    store: &'s Store,
    policy: Policy,
}

impl Store {
    pub(crate) fn of(inner: Inner) -> Store {
        Store(Arc::new(inner))
    }

    /// Begins to declare objects.
    pub fn builder() -> Builder {
        Builder::new()
    }

    /// Runs the code as a transaction, and answers what it answered. The code may run several times: what it does besides its
    /// calls on objects is done each time.
    pub fn atomically<A>(&self, code: impl FnMut(&mut Tx<'_>) -> Result<A, Stop>) -> Result<A, Error> {
        self.with(self.0.policy).atomically(code)
    }

    /// As [`Store::atomically`], with the transaction's place in the order of all.
    pub fn placed<A>(&self, code: impl FnMut(&mut Tx<'_>) -> Result<A, Stop>) -> Result<(A, u64), Error> {
        self.with(self.0.policy).placed(code)
    }

    /// As [`Store::atomically`], with code that may give the transaction up by an error of its own.
    pub fn try_atomically<A, E>(&self, code: impl FnMut(&mut Tx<'_>) -> Result<A, Halt<E>>) -> Result<A, Failed<E>> {
        self.with(self.0.policy).try_atomically(code)
    }

    /// The store under another policy.
    pub fn with(&self, policy: Policy) -> With<'_> {
        With { store: self, policy }
    }

    /// What was done so far, of all threads. Transactions that end meanwhile may or may not count.
    pub fn stats(&self) -> Stats {
        let mut all = Stats::default();
        for counts in self.0.slots.iter().map(|it| &it.counts) {
            all.commits += counts.commits.load(Relaxed);
            all.tries += counts.tries.load(Relaxed);
            all.aborts_in_calls += counts.aborts_in_calls.load(Relaxed);
            all.aborts_at_commit += counts.aborts_at_commit.load(Relaxed);
            all.retries += counts.retries.load(Relaxed);
            all.given_up += counts.given_up.load(Relaxed);
            all.alone += counts.alone.load(Relaxed);
        }
        all
    }

    /// Closes the store, and answers what its objects held at the end. Where a clone of it is left, or memory is wanting, the store
    /// comes back within the error.
    pub fn try_close(self) -> Result<Rows, NotClosed> {
        let mut inner = match Arc::try_unwrap(self.0) {
            Ok(inner) => inner,
            Err(shared) => return Err(NotClosed { store: Some(Store(shared)), why: WhyOpen::Shared }),
        };
        if inner.is_forked() {
            return Err(NotClosed { store: Some(Store::of(inner)), why: WhyOpen::Forked });
        }
        inner.dismiss();
        let status = loop {
            match unsafe { raw::sto_close(&mut inner.store) } {
                raw::BUSY => std::thread::yield_now(),
                status => break status,
            }
        };
        if status != raw::OK {
            let is_lost = inner.store.is_empty() || inner.hire().is_err();
            let store = if is_lost { None } else { Some(Store::of(inner)) };
            return Err(NotClosed { store, why: WhyOpen::Library(Status(status)) });
        }
        let rows = rows_of(&mut inner).ok_or(NotClosed { store: None, why: WhyOpen::Library(Status(raw::NO_MEMORY)) })?;
        Ok(Rows { id: inner.id, bases: inner.bases, rows })
    }
}

/// The rows of a store that was closed. None where memory is wanting.
fn rows_of(inner: &mut Inner) -> Option<Vec<raw::Row>> {
    let none = raw::Row { object: 0, unused: 0, key: 0, value: 0 };
    let mut rows = vec![none; 1];
    let mut count = 0;
    while unsafe { raw::sto_rows(&mut inner.store, rows.as_mut_ptr(), rows.len(), &mut count) } == raw::NO_ROOM {
        rows.try_reserve_exact(count - rows.len()).ok()?;
        rows.resize(count, none);
    }
    rows.truncate(count);
    Some(rows)
}

impl With<'_> {
    /// As [`Store::atomically`].
    #[inline]
    pub fn atomically<A>(&self, code: impl FnMut(&mut Tx<'_>) -> Result<A, Stop>) -> Result<A, Error> {
        self.placed(code).map(|(given, _)| given)
    }

    /// As [`Store::placed`].
    #[inline]
    pub fn placed<A>(&self, mut code: impl FnMut(&mut Tx<'_>) -> Result<A, Stop>) -> Result<(A, u64), Error> {
        self.run(|tx| code(tx).map_err(Halt::<Infallible>::from)).map_err(|failed| match failed {
            Failed::Store(error) => error,
            Failed::Gave(never) => match never {},
        })
    }

    /// As [`Store::try_atomically`].
    #[inline]
    pub fn try_atomically<A, E>(&self, code: impl FnMut(&mut Tx<'_>) -> Result<A, Halt<E>>) -> Result<A, Failed<E>> {
        self.run(code).map(|(given, _)| given)
    }

    fn run<A, E>(&self, code: impl FnMut(&mut Tx<'_>) -> Result<A, Halt<E>>) -> Result<(A, u64), Failed<E>> {
        Run::begin(&self.store.0, self.policy)?.to_end(code)
    }
}

/// Why a store was not closed.
#[derive(Clone, Copy, PartialEq, Eq, Debug)]
pub enum WhyOpen {
    /// A clone of it is left.
    Shared,
    /// It was opened before this process was forked.
    Forked,
    /// The library below refused.
    Library(Status),
}

/// A store that could not be closed, and why.
#[derive(Debug)]
pub struct NotClosed {
    /// The store, open as before; none where the library lost it for want of memory.
    pub store: Option<Store>,
    pub why: WhyOpen,
}

impl fmt::Display for NotClosed {
    fn fmt(&self, f: &mut fmt::Formatter<'_>) -> fmt::Result {
        match self.why {
            WhyOpen::Shared => write!(f, "a clone of the store is left"),
            WhyOpen::Forked => write!(f, "the store was opened before this process was forked"),
            WhyOpen::Library(_) => write!(f, "the store could not be closed"),
        }
    }
}

impl std::error::Error for NotClosed {
    fn source(&self) -> Option<&(dyn std::error::Error + 'static)> {
        match &self.why {
            WhyOpen::Shared | WhyOpen::Forked => None,
            WhyOpen::Library(status) => Some(status),
        }
    }
}

/// What the objects of a closed store held.
#[derive(Debug)]
pub struct Rows {
    id: u64,
    bases: [u32; 6],
    rows: Vec<raw::Row>,
}

impl Rows {
    fn of(&self, id: Id) -> &[raw::Row] {
        if id.store != self.id {
            return &[];
        }
        let object = self.bases[id.object.kind as usize] + id.object.index;
        let first = self.rows.partition_point(|row| row.object < object);
        let last = self.rows.partition_point(|row| row.object <= object);
        &self.rows[first..last]
    }

    /// The value of a variable; none where it is one of another store.
    pub fn var<T: Word>(&self, var: TVar<T>) -> Option<T> {
        self.of(var.id).first().and_then(|row| T::of_word(row.value))
    }

    /// The value of a counter.
    pub fn counter(&self, counter: Counter) -> Option<i64> {
        self.of(counter.id).first().map(|row| row.value)
    }

    /// The values of an array, in the order of their places.
    pub fn array<T: Word>(&self, array: Array<T>) -> impl Iterator<Item = T> + '_ {
        self.of(array.id).iter().filter_map(|row| T::of_word(row.value))
    }

    /// The values of a vector, the first one first.
    pub fn vector<T: Word>(&self, vector: Vector<T>) -> impl Iterator<Item = T> + '_ {
        self.of(vector.id).iter().filter_map(|row| T::of_word(row.value))
    }

    /// The keys of a tree with their values, in order.
    pub fn tree<K: Key, V: Word>(&self, tree: Tree<K, V>) -> impl Iterator<Item = (K, V)> + '_ {
        self.of(tree.id).iter().filter_map(|row| Some((K::of_word(row.key)?, V::of_word(row.value)?)))
    }

    /// The keys of a table with their values, in no order.
    pub fn table<K: Key, V: Word>(&self, table: Table<K, V>) -> impl Iterator<Item = (K, V)> + '_ {
        self.of(table.id).iter().filter_map(|row| Some((K::of_word(objects::unmixed(row.key))?, V::of_word(row.value)?)))
    }
}
