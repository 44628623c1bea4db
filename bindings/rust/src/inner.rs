//! A store with its workers, and what its transactions wait for.
use crate::error::Error;
use crate::raw::{self, Handle};
use crate::run::Policy;
use std::cell::{Cell, UnsafeCell};
use std::sync::atomic::{AtomicBool, AtomicU32, AtomicU64, AtomicUsize, Ordering::Relaxed, Ordering::SeqCst};
use std::sync::{Condvar, Mutex, MutexGuard, Once, PoisonError, TryLockError};
use std::time::{Duration, Instant};

#[derive(Default)]
pub(crate) struct Counts {
    pub(crate) commits: AtomicU64,
    pub(crate) tries: AtomicU64,
    pub(crate) aborts_in_calls: AtomicU64,
    pub(crate) aborts_at_commit: AtomicU64,
    pub(crate) retries: AtomicU64,
    pub(crate) given_up: AtomicU64,
    pub(crate) alone: AtomicU64,
}

/// Only the thread that holds the slot counts in it.
#[inline]
pub(crate) fn count(at: &AtomicU64) {
    at.store(at.load(Relaxed) + 1, Relaxed);
}

#[repr(align(128))]
pub(crate) struct Slot {
    taken: AtomicBool,
    worker: UnsafeCell<Handle>,
    pub(crate) counts: Counts,
}

impl Slot {
    fn empty() -> Slot {
        Slot { taken: AtomicBool::new(false), worker: UnsafeCell::new(Handle::NONE), counts: Counts::default() }
    }
}

pub(crate) struct Inner {
    pub(crate) id: u64,
    /// The number of the first object of each kind.
    pub(crate) bases: [u32; 6],
    pub(crate) store: Handle,
    pub(crate) slots: Vec<Slot>,
    pub(crate) policy: Policy,
    forks: u32,
    /// How many transactions wait for a change: only then a commit tells of itself.
    waiting: AtomicU32,
    changes: Mutex<u64>,
    changed: Condvar,
    /// How many threads wait for a worker.
    hungry: AtomicU32,
    free: Mutex<()>,
    freed: Condvar,
    /// Whether a transaction runs alone: then no other try begins.
    has_alone: AtomicBool,
    alone: Mutex<()>,
}

// The handle of the store is used where the store is opened, closed or dropped, which has it by value. A worker is used by the
// thread that turned its slot's `taken` from false to true, until that thread turns it back; both are sequentially consistent,
// which is what sto.h asks of a handle that goes to another thread.
unsafe impl Send for Inner {}
unsafe impl Sync for Inner {}

fn locked<T>(mutex: &Mutex<T>) -> MutexGuard<'_, T> {
    mutex.lock().unwrap_or_else(PoisonError::into_inner)
}

struct Here {
    inside: Cell<bool>,
    number: Cell<usize>,
}

thread_local! {
    static HERE: Here = const { Here { inside: Cell::new(false), number: Cell::new(usize::MAX) } };
}

static THREADS: AtomicUsize = AtomicUsize::new(0);
static FORKS: AtomicU32 = AtomicU32::new(0);
static FORKS_COUNTED: Once = Once::new();

extern "C" fn count_fork() {
    FORKS.fetch_add(1, SeqCst);
}

/// How often this process was forked off.
fn forks() -> u32 {
    #[cfg(unix)]
    FORKS_COUNTED.call_once(|| {
        extern "C" {
            fn pthread_atfork(before: Option<extern "C" fn()>, parent: Option<extern "C" fn()>, child: Option<extern "C" fn()>) -> i32;
        }
        unsafe { pthread_atfork(None, None, Some(count_fork)) };
    });
    FORKS.load(Relaxed)
}

/// This thread is inside of a transaction.
pub(crate) struct Inside {
    number: usize,
}

impl Inside {
    pub(crate) fn enter() -> Result<Inside, Error> {
        HERE.with(|here| {
            if here.inside.replace(true) {
                return Err(Error::Nested);
            }
            if here.number.get() == usize::MAX {
                here.number.set(THREADS.fetch_add(1, Relaxed));
            }
            Ok(Inside { number: here.number.get() })
        })
    }
}

impl Drop for Inside {
    fn drop(&mut self) {
        HERE.with(|here| here.inside.set(false));
    }
}

/// A worker that is out: it comes back also where the code panics, and its transaction is given up then.
pub(crate) struct Out<'s> {
    inner: &'s Inner,
    slot: &'s Slot,
    /// Whether it is in a transaction.
    pub(crate) open: bool,
}

impl<'s> Out<'s> {
    pub(crate) fn worker(&mut self) -> *mut Handle {
        self.slot.worker.get()
    }

    pub(crate) fn counts(&self) -> &'s Counts {
        &self.slot.counts
    }

    pub(crate) fn cancel(&mut self) {
        if self.open {
            self.open = false;
            unsafe { raw::sto_cancel(self.worker()) };
        }
    }
}

impl Drop for Out<'_> {
    fn drop(&mut self) {
        if self.open {
            count(&self.slot.counts.given_up);
        }
        self.cancel();
        self.slot.taken.store(false, SeqCst);
        if self.inner.hungry.load(SeqCst) > 0 {
            let _free = locked(&self.inner.free);
            self.inner.freed.notify_one();
        }
    }
}

/// No other try begins as long as this is held.
pub(crate) struct Alone<'s> {
    inner: &'s Inner,
    _lock: MutexGuard<'s, ()>,
}

impl Drop for Alone<'_> {
    fn drop(&mut self) {
        self.inner.has_alone.store(false, SeqCst);
    }
}

/// A transaction waits for a change, or will.
pub(crate) struct Waiting<'s>(&'s Inner);

impl Drop for Waiting<'_> {
    fn drop(&mut self) {
        self.0.waiting.fetch_sub(1, SeqCst);
    }
}

pub(crate) fn is_over(until: Option<Instant>) -> bool {
    until.map_or(false, |until| Instant::now() >= until)
}

/// At most so long, and not past the end.
fn share(of: Duration, until: Option<Instant>) -> Duration {
    until.map_or(of, |until| of.min(until.saturating_duration_since(Instant::now())))
}

impl Inner {
    pub(crate) fn open(id: u64, bases: [u32; 6], shapes: &[raw::Shape], workers: u32, policy: Policy) -> Result<Inner, Error> {
        let mut inner = Inner {
            id,
            bases,
            store: Handle::NONE,
            slots: Vec::new(),
            policy,
            forks: forks(),
            waiting: AtomicU32::new(0),
            changes: Mutex::new(0),
            changed: Condvar::new(),
            hungry: AtomicU32::new(0),
            free: Mutex::new(()),
            freed: Condvar::new(),
            has_alone: AtomicBool::new(false),
            alone: Mutex::new(()),
        };
        match unsafe { raw::sto_open(&mut inner.store, shapes.as_ptr(), shapes.len(), workers) } {
            raw::OK => {}
            status => return Err(Error::of(status)),
        }
        inner.slots.try_reserve_exact(workers as usize).map_err(|_| Error::NoMemory)?;
        inner.slots.resize_with(workers as usize, Slot::empty);
        inner.hire()?;
        Ok(inner)
    }

    /// Takes the workers out of the store that are not out yet.
    pub(crate) fn hire(&mut self) -> Result<(), Error> {
        for slot in &mut self.slots {
            let worker = slot.worker.get_mut();
            if worker.is_empty() {
                match unsafe { raw::sto_worker(&mut self.store, worker) } {
                    raw::OK => {}
                    status => return Err(Error::of(status)),
                }
            }
        }
        Ok(())
    }

    /// Gives all workers back.
    pub(crate) fn dismiss(&mut self) {
        for slot in &mut self.slots {
            while unsafe { raw::sto_give_back(slot.worker.get_mut()) } == raw::BUSY {
                std::thread::yield_now();
            }
        }
    }

    pub(crate) fn is_forked(&self) -> bool {
        self.forks != FORKS.load(Relaxed)
    }

    fn try_take(&self, first: usize) -> Option<Out<'_>> {
        let (before, after) = self.slots.split_at(first % self.slots.len());
        let mut slots = after.iter().chain(before);
        let slot = slots.find(|it| !it.taken.load(Relaxed) && !it.taken.swap(true, SeqCst))?;
        Some(Out { inner: self, slot, open: false })
    }

    /// Takes a worker, and waits for one where all are taken. None where the time is over.
    pub(crate) fn take(&self, inside: &Inside, until: Option<Instant>) -> Option<Out<'_>> {
        if let Some(out) = self.try_take(inside.number) {
            return Some(out);
        }
        self.hungry.fetch_add(1, SeqCst);
        let mut free = locked(&self.free);
        let out = loop {
            let out = self.try_take(inside.number);
            if out.is_some() || is_over(until) {
                break out;
            }
            let time = share(Duration::from_millis(20), until);
            free = self.freed.wait_timeout(free, time).unwrap_or_else(PoisonError::into_inner).0;
        };
        drop(free);
        self.hungry.fetch_sub(1, SeqCst);
        out
    }

    pub(crate) fn begin_waiting(&self) -> Waiting<'_> {
        self.waiting.fetch_add(1, SeqCst);
        Waiting(self)
    }

    pub(crate) fn changes(&self) -> u64 {
        *locked(&self.changes)
    }

    pub(crate) fn tell_change(&self) {
        if self.waiting.load(SeqCst) > 0 {
            *locked(&self.changes) += 1;
            self.changed.notify_all();
        }
    }

    /// Waits until there were more changes than `seen`; whether there were before the end of time.
    pub(crate) fn wait(&self, seen: u64, until: Option<Instant>) -> bool {
        let mut changes = locked(&self.changes);
        while *changes == seen {
            if is_over(until) {
                return false;
            }
            let time = share(Duration::from_secs(3600), until);
            changes = self.changed.wait_timeout(changes, time).unwrap_or_else(PoisonError::into_inner).0;
        }
        true
    }

    pub(crate) fn has_alone(&self) -> bool {
        self.has_alone.load(SeqCst)
    }

    /// Waits until no other transaction runs alone. None where the time is over.
    pub(crate) fn go_alone(&self, pause: &mut Pause, until: Option<Instant>) -> Option<Alone<'_>> {
        loop {
            let lock = match self.alone.try_lock() {
                Ok(lock) => lock,
                Err(TryLockError::Poisoned(lock)) => lock.into_inner(),
                Err(TryLockError::WouldBlock) if is_over(until) => return None,
                Err(TryLockError::WouldBlock) => {
                    pause.longer();
                    continue;
                }
            };
            self.has_alone.store(true, SeqCst);
            return Some(Alone { inner: self, _lock: lock });
        }
    }
}

impl Drop for Inner {
    fn drop(&mut self) {
        if self.is_forked() {
            // (what the parent's threads held as it forked stays so here)
            return;
        }
        for slot in &mut self.slots {
            unsafe { raw::sto_free(slot.worker.get_mut()) };
        }
        unsafe { raw::sto_free(&mut self.store) };
    }
}

/// A pause that grows: it spins, then yields, then sleeps up to a millisecond.
#[derive(Default)]
pub(crate) struct Pause {
    step: u32,
}

impl Pause {
    #[cold]
    pub(crate) fn longer(&mut self) {
        match self.step {
            0..=5 => (0..1 << self.step).for_each(|_| std::hint::spin_loop()),
            6..=12 => std::thread::yield_now(),
            step => std::thread::sleep(Duration::from_micros(8 << (step - 13).min(7))),
        }
        self.step += 1;
    }
}
