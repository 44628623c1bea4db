"""The loop of tries of one transaction."""
from __future__ import annotations

import ctypes
import time
from typing import TYPE_CHECKING, Any, Callable, Optional, Tuple

from . import _library as raw
from ._errors import Busy, NestedTransaction, Stop, Timeout, WrongUse, failed
from ._library import lib
from ._transaction import CANCEL, RETRY, Lease, Transaction, Worker

if TYPE_CHECKING:
    from ._store import Store

TRIES = 16
# Others wait at most so long, in seconds, for one that runs alone, and one that waits for a change looks again after so long. So where an
# interrupt cuts off what a transaction does at its end, nobody waits for ever.
LOOK = 1.0


class Run:
    """A transaction as it is tried."""

    __slots__ = ("store", "lease", "worker", "function", "given", "until", "tries", "met", "seen_waiting", "wrote", "has_ended", "place")

    def __init__(self, store: "Store", function: Callable[..., Any], given: Tuple[Any, ...], timeout: Optional[float], tries: Optional[int]):
        self.store, self.function, self.given, self.tries = store, function, given, tries
        self.until = None if timeout is None else time.monotonic() + timeout
        self.lease: Lease = store._lease()
        self.met, self.seen_waiting, self.wrote, self.has_ended = 0, False, False, False
        self.place = ctypes.c_uint64()
        self.worker: Worker

    def to_end(self) -> Tuple[Any, Optional[int]]:
        """Tries until the transaction has taken effect; what its function answered, and its place in the order.

        At the end it lets go of what it held, here and by no function of its own: an interrupt may come as a function is entered, or behind
        a call. What matters is set before the first call.
        """
        lease = self.lease
        if lease.worker is not None and lease.worker.tx is not None:
            raise NestedTransaction("a transaction was begun within a transaction")
        try:
            self.worker = self.store._take(self)
            while not self.has_ended:
                self.let_pass()
                answer = self.try_once()
            return answer
        finally:
            worker = lease.worker
            if worker is not None:
                if worker.tx is not None:
                    worker.given_up += 1
                worker.tx = None
                worker.is_alone = False
                try:
                    lib.sto_cancel(worker.at)
                finally:
                    lease.worker = None
                    worker.owner = None
            self.tell()

    def tell(self) -> None:
        """Tells those who wait that something has changed. Where an interrupt cuts that off, they look again by themselves."""
        if self.seen_waiting:
            self.store._waiting.pop(self.lease, None)
        if self.wrote:
            self.store._ring()

    def see_time(self) -> None:
        if self.until is not None and time.monotonic() >= self.until:
            raise Timeout("the transaction's time was over")

    def let_pass(self) -> None:
        """Waits as long as another transaction runs alone."""
        end = None
        while True:
            alone = self.store._alone
            if alone is None or alone is self.worker or not alone.is_alone:
                return
            end = end or time.monotonic() + LOOK
            if time.monotonic() >= end:
                return
            self.see_time()
            time.sleep(0.0002)

    def begin(self) -> Transaction:
        worker = self.worker
        tx = Transaction(self.store, worker)
        worker.tx = tx
        worker.tries += 1
        status = lib.sto_begin(worker.at)
        if status == raw.IN_TRANSACTION:  # an interrupt came between a begin and its end
            lib.sto_cancel(worker.at)
            status = lib.sto_begin(worker.at)
        if status:
            raise failed(status)
        return tx

    def try_once(self) -> Tuple[Any, Optional[int]]:
        """Makes one try, and what is due before the next one where it did not take effect."""
        if self.seen_waiting:
            self.lease.bell.acquire(False)
        tx = self.begin()
        answer = None
        try:
            answer = self.function(tx, *self.given)
        except Stop:
            if tx._stopped is None:
                raise WrongUse("the stop of another transaction") from None
        stopped = tx._stopped
        if stopped is None:
            return self.commit(tx, answer)
        self.worker.tx = None
        if stopped == RETRY:
            self.wait()
        elif stopped == raw.ABORTED:
            self.worker.aborts_in_calls += 1
            self.go_on()
        else:
            self.worker.given_up += 1
            if stopped != CANCEL:
                raise failed(stopped)
            self.has_ended = True
        return None, None

    def commit(self, tx: Transaction, answer: Any) -> Tuple[Any, Optional[int]]:
        worker = self.worker
        # (what was written may take effect although an interrupt hides the status)
        self.wrote = tx._wrote
        status = lib.sto_commit(worker.at, ctypes.byref(self.place))
        worker.tx = None
        if not status:
            self.has_ended = True
            worker.commits += 1
            return answer, self.place.value
        self.wrote = False
        if status != raw.ABORTED:
            worker.given_up += 1
            raise failed(status)
        worker.aborts_at_commit += 1
        self.go_on()
        return None, None

    def go_on(self) -> None:
        """After a try that met another transaction."""
        self.met += 1
        self.see_time()
        if self.tries is not None and self.met >= self.tries:
            raise Busy(f"the transaction met others in each of {self.met} tries")
        if self.tries is None and self.met >= TRIES and not self.worker.is_alone:
            self.go_alone()
        time.sleep(0 if self.met < 8 else 0.0001 * min(self.met, 20))

    def go_alone(self) -> None:
        """Lets no other try begin from here on, as soon as no other transaction runs alone."""
        self.worker.alone += 1
        self.let_pass()
        with self.store._lock:
            alone = self.store._alone
            if alone is None or not alone.is_alone:
                self.store._alone = self.worker
                self.worker.is_alone = True

    def wait(self) -> None:
        """After a try that wants something to change. The first one is made again at once, when each commit rings: so none is missed
        in between."""
        worker, lease = self.worker, self.lease
        worker.retries += 1
        worker.is_alone = False
        lib.sto_cancel(worker.at)
        if not self.seen_waiting:
            self.seen_waiting = True
            self.store._waiting[lease] = lease.bell
            return
        # (others need a worker to change what this one waits for)
        lease.worker = None
        worker.owner = None
        self.see_time()
        left = LOOK if self.until is None else min(LOOK, max(0.0, self.until - time.monotonic()))
        lease.bell.acquire(True, left)
        self.see_time()
        self.worker = self.store._take(self)
