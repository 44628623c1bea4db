//! A transaction under way, and the loop of its tries.
use crate::error::{Ending, Error, Failed, Halt, Stop};
use crate::inner::{count, is_over, Alone, Inner, Inside, Out, Pause, Waiting};
use crate::objects::Id;
use crate::raw::{self, Handle};
use std::fmt;
use std::marker::PhantomData;
use std::time::{Duration, Instant};

/// What is done about a transaction that meets others.
#[derive(Clone, Copy, PartialEq, Eq, Debug)]
#[must_use]
pub struct Policy {
    tries: u32,
    then_alone: bool,
    timeout: Option<Duration>,
}

impl Policy {
    /// So many tries, and then [`Error::Busy`].
    pub const fn tries(tries: u32) -> Policy {
        Policy { tries, then_alone: false, timeout: None }
    }

    /// After the tries no other try begins until this transaction is done, so that it gets through.
    pub const fn then_alone(self) -> Policy {
        Policy { then_alone: true, ..self }
    }

    /// So long at most, and then [`Error::Timeout`]. It is looked at between tries.
    pub const fn timeout(self, timeout: Duration) -> Policy {
        Policy { timeout: Some(timeout), ..self }
    }
}

impl Default for Policy {
    /// Sixteen tries, and then alone; no end of time.
    fn default() -> Policy {
        Policy::tries(16).then_alone()
    }
}

enum Stopped {
    Aborted,
    Retry,
    Failed(Error),
}

/// A transaction under way. It stays on its thread, and within the code that it was given to.
pub struct Tx<'s> {
    inner: &'s Inner,
    worker: *mut Handle,
    stopped: Option<Stopped>,
    wrote: bool,
    stays: PhantomData<*mut ()>,
}

impl fmt::Debug for Tx<'_> {
    fn fmt(&self, f: &mut fmt::Formatter<'_>) -> fmt::Result {
        f.debug_struct("Tx").field("stopped", &self.stopped.is_some()).finish()
    }
}

/// The operations that change nothing, by their bits.
const READS: u32 = 1 << raw::GET | 1 << raw::TEST | 1 << raw::HAS | 1 << raw::LEN | 1 << raw::NEXT | 1 << raw::COUNT | 1 << raw::SCAN;

impl Tx<'_> {
    #[cold]
    pub(crate) fn stop(&mut self, error: Error) -> Stop {
        self.stopped.get_or_insert(Stopped::Failed(error));
        Stop(())
    }

    pub(crate) fn alive(&self) -> Result<(), Stop> {
        self.stopped.as_ref().map_or(Ok(()), |_| Err(Stop(())))
    }

    #[inline]
    pub(crate) fn ask<const N: usize>(&mut self, id: Id, operation: u32, numbers: [i64; N]) -> Result<raw::Reply, Stop> {
        let object = self.number_of(id)?;
        self.wrote |= READS >> operation & 1 == 0;
        let call = raw::Call::new(object, operation, &numbers);
        let mut reply = raw::Reply { answer: 0, unused: 0, value: 0 };
        match unsafe { raw::sto_ask(self.worker, &call, &mut reply) } {
            raw::OK => Ok(reply),
            status => Err(self.refused(status)),
        }
    }

    /// The number of an object, which is one of this store.
    #[inline]
    fn number_of(&mut self, id: Id) -> Result<u32, Stop> {
        self.alive()?;
        if id.store != self.inner.id {
            return Err(self.stop(Error::OtherStore(id.object)));
        }
        Ok(self.inner.bases[id.object.kind as usize] + id.object.index)
    }

    #[cold]
    fn refused(&mut self, status: u32) -> Stop {
        if status == raw::ABORTED {
            self.stopped = Some(Stopped::Aborted);
            return Stop(());
        }
        self.stop(Error::of(status))
    }

    /// Room for so many pairs.
    fn room(&mut self, many: usize) -> Result<Vec<raw::Pair>, Stop> {
        let mut pairs = Vec::new();
        if pairs.try_reserve_exact(many).is_err() {
            return Err(self.stop(Error::NoMemory));
        }
        pairs.resize(many, raw::Pair { key: 0, value: 0 });
        Ok(pairs)
    }

    pub(crate) fn walk(&mut self, tree: Id, from: i64, limit: usize) -> Result<Vec<raw::Pair>, Stop> {
        let (object, mut pairs, mut count) = (self.number_of(tree)?, self.room(limit)?, 0);
        match unsafe { raw::sto_walk(self.worker, object, from, pairs.as_mut_ptr(), limit, &mut count) } {
            raw::OK => {
                pairs.truncate(count);
                Ok(pairs)
            }
            status => Err(self.refused(status)),
        }
    }

    pub(crate) fn pairs(&mut self, many: usize) -> Result<Vec<raw::Pair>, Stop> {
        let (mut pairs, mut count) = (self.room(many)?, 0);
        match unsafe { raw::sto_pairs(self.worker, pairs.as_mut_ptr(), many, &mut count) } {
            raw::OK => Ok(pairs),
            status => Err(self.refused(status)),
        }
    }

    /// Gives this try up, waits until some transaction of the store has changed something, and tries again. With a policy that
    /// has an end of time it ends by [`Error::Timeout`].
    pub fn retry<A>(&mut self) -> Result<A, Stop> {
        self.stopped.get_or_insert(Stopped::Retry);
        Err(Stop(()))
    }

    /// Gives the transaction up: it ends by [`Error::Cancelled`].
    pub fn cancel<A>(&mut self) -> Result<A, Stop> {
        Err(self.stop(Error::Cancelled))
    }
}

/// How a try ended after which the transaction is not given up.
enum Tried<A> {
    Committed(A, u64),
    MetAnother,
    Waits,
}

/// A transaction as it is tried. What it holds is let go of where it ends, also by a panic, in this order.
pub(crate) struct Run<'s> {
    out: Option<Out<'s>>,
    alone: Option<Alone<'s>>,
    waiting: Option<Waiting<'s>>,
    inside: Inside,
    inner: &'s Inner,
    policy: Policy,
    until: Option<Instant>,
    tries: u32,
    met: u32,
    pause: Pause,
}

impl<'s> Run<'s> {
    pub(crate) fn begin(inner: &'s Inner, policy: Policy) -> Result<Run<'s>, Error> {
        if inner.is_forked() {
            return Err(Error::Forked);
        }
        let inside = Inside::enter()?;
        let until = policy.timeout.and_then(|time| Instant::now().checked_add(time));
        let out = inner.take(&inside, until).ok_or(Error::Timeout { tries: 0 })?;
        let pause = Pause::default();
        Ok(Run { out: Some(out), alone: None, waiting: None, inside, inner, policy, until, tries: 0, met: 0, pause })
    }

    /// Tries until the transaction has taken effect; what the code answered, and its place in the order.
    pub(crate) fn to_end<A, E>(mut self, mut code: impl FnMut(&mut Tx<'_>) -> Result<A, Halt<E>>) -> Result<(A, u64), Failed<E>> {
        loop {
            self.let_pass()?;
            let seen = self.waiting.as_ref().map(|_| self.inner.changes());
            match self.try_once(&mut code)? {
                Tried::Committed(given, place) => return Ok((given, place)),
                Tried::MetAnother => self.go_on()?,
                Tried::Waits => self.wait(seen)?,
            }
        }
    }

    fn late(&self) -> Error {
        Error::Timeout { tries: self.tries }
    }

    fn out(&mut self) -> &mut Out<'s> {
        self.out.as_mut().expect("a worker is out but while the transaction waits")
    }

    /// Waits as long as another transaction runs alone.
    fn let_pass(&mut self) -> Result<(), Error> {
        while self.alone.is_none() && self.inner.has_alone() {
            if is_over(self.until) {
                return Err(self.late());
            }
            self.pause.longer();
        }
        Ok(())
    }

    fn try_once<A, E>(&mut self, code: &mut impl FnMut(&mut Tx<'_>) -> Result<A, Halt<E>>) -> Result<Tried<A>, Failed<E>> {
        self.tries = self.tries.saturating_add(1);
        let inner = self.inner;
        let out = self.out();
        match unsafe { raw::sto_begin(out.worker()) } {
            raw::OK => out.open = true,
            status => return Err(Error::of(status).into()),
        }
        count(&out.counts().tries);
        let mut tx = Tx { inner, worker: out.worker(), stopped: None, wrote: false, stays: PhantomData };
        let given = code(&mut tx);
        match (tx.stopped, given) {
            (None, Ok(given)) => self.commit(given, tx.wrote),
            (None, Err(Halt(Ending::Gave(error)))) => Err(Failed::Gave(error)),
            (None, Err(Halt(Ending::Stopped))) => Err(Error::OtherStop.into()),
            (Some(Stopped::Failed(error)), _) => Err(error.into()),
            (Some(Stopped::Retry), _) => Ok(Tried::Waits),
            (Some(Stopped::Aborted), _) => {
                out.open = false;
                count(&out.counts().aborts_in_calls);
                Ok(Tried::MetAnother)
            }
        }
    }

    fn commit<A, E>(&mut self, given: A, wrote: bool) -> Result<Tried<A>, Failed<E>> {
        let out = self.out();
        let mut place = 0;
        out.open = false;
        match unsafe { raw::sto_commit(out.worker(), &mut place) } {
            raw::OK => {
                count(&out.counts().commits);
                if wrote {
                    self.inner.tell_change();
                }
                Ok(Tried::Committed(given, place))
            }
            raw::ABORTED => {
                count(&out.counts().aborts_at_commit);
                Ok(Tried::MetAnother)
            }
            status => {
                count(&out.counts().given_up);
                Err(Error::of(status).into())
            }
        }
    }

    /// After a try that met another transaction.
    fn go_on(&mut self) -> Result<(), Error> {
        self.met = self.met.saturating_add(1);
        if is_over(self.until) {
            return Err(self.late());
        }
        if self.met >= self.policy.tries && self.alone.is_none() {
            if !self.policy.then_alone {
                return Err(Error::Busy { tries: self.tries });
            }
            count(&self.out().counts().alone);
            self.alone = self.inner.go_alone(&mut self.pause, self.until);
            if self.alone.is_none() {
                return Err(self.late());
            }
        }
        self.pause.longer();
        Ok(())
    }

    /// After a try that wants something to change. The first one is made again at once, when each commit tells of itself: so none
    /// is missed in between.
    fn wait(&mut self, seen: Option<u64>) -> Result<(), Error> {
        count(&self.out().counts().retries);
        self.out().cancel();
        self.alone = None;
        match seen {
            None => self.waiting = Some(self.inner.begin_waiting()),
            Some(seen) => {
                // (others need a worker to change what this one waits for)
                self.out = None;
                let changed = self.inner.wait(seen, self.until);
                self.out = if changed { self.inner.take(&self.inside, self.until) } else { None };
                if self.out.is_none() {
                    return Err(self.late());
                }
            }
        }
        Ok(())
    }
}
