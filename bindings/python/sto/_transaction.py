"""A transaction under way."""
from __future__ import annotations

import ctypes
import threading
from typing import TYPE_CHECKING, List, NoReturn, Optional, Tuple

from . import _library as raw
from ._errors import Stop, WrongUse
from ._library import lib

if TYPE_CHECKING:
    from ._objects import Object
    from ._store import Store

byref = ctypes.byref
# (how a transaction stopped that is no status of the library)
RETRY, CANCEL = -1, -2


class Worker:
    """A worker of the library, and the transaction that it runs.

    An interrupt may come between any two calls. So what says that a transaction is over is only set, by no call.
    """

    __slots__ = ("handle", "at", "owner", "tx", "is_alone", "commits", "tries", "aborts_in_calls", "aborts_at_commit", "retries",
                 "given_up", "alone")

    def __init__(self) -> None:
        self.handle = raw.Handle()
        self.at = byref(self.handle)
        self.owner: Optional[Lease] = None
        self.tx: Optional[Transaction] = None
        self.is_alone = False
        self.commits = self.tries = self.aborts_in_calls = self.aborts_at_commit = self.retries = self.given_up = self.alone = 0


class Lease:
    """What a thread has of a store: the worker that it uses, and the bell that rings where something has changed."""

    __slots__ = ("worker", "bell", "last")

    def __init__(self) -> None:
        self.worker: Optional[Worker] = None
        self.last: Optional[Worker] = None
        self.bell = threading.Lock()


class Transaction:
    """A transaction under way: it is good within its function, on its thread."""

    __slots__ = ("_store", "_worker", "_thread", "_stopped", "_wrote", "_call", "_reply", "_call_at", "_reply_at")

    def __init__(self, store: "Store", worker: Worker):
        self._store, self._worker, self._thread = store, worker, threading.get_ident()
        self._stopped: Optional[int] = None
        self._wrote = False
        self._call, self._reply = raw.Call(), raw.Reply()
        self._call_at, self._reply_at = byref(self._call), byref(self._reply)

    def _see(self, thing: Optional["Object"] = None) -> None:
        """Sees that the transaction can go on, with this object."""
        if self._worker.tx is not self:
            raise WrongUse("the transaction has ended")
        if self._thread != threading.get_ident():
            raise WrongUse("the transaction belongs to another thread")
        if self._stopped is not None:
            raise Stop
        if thing is not None and thing._store is not self._store:
            raise ValueError("the object is one of another store")

    def _ask(self, thing: "Object", operation: int, a: Optional[int] = None, b: Optional[int] = None) -> raw.Reply:
        self._see(thing)
        if operation in raw.CHANGES:
            self._wrote = True
        call = self._call
        call.object, call.operation, call.numbers = thing._number, operation, (a is not None) + (b is not None)
        call.a, call.b = a or 0, b or 0
        status = lib.sto_ask(self._worker.at, self._call_at, self._reply_at)
        if status:
            self._stopped = status
            raise Stop
        return self._reply

    def _pairs(self, many: int) -> List[Tuple[int, int]]:
        pairs, count = (raw.Pair * max(1, many))(), ctypes.c_size_t()
        status = lib.sto_pairs(self._worker.at, pairs, many, byref(count))
        if status:
            self._stopped = status
            raise Stop
        return [(it.key, it.value) for it in pairs[: count.value]]

    def _walk(self, tree: "Object", first: int, limit: int) -> List[Tuple[int, int]]:
        self._see(tree)
        pairs, count = (raw.Pair * max(1, limit))(), ctypes.c_size_t()
        status = lib.sto_walk(self._worker.at, tree._number, first, pairs, limit, byref(count))
        if status:
            self._stopped = status
            raise Stop
        return [(it.key, it.value) for it in pairs[: count.value]]

    def _stop(self, why: int) -> NoReturn:
        self._see()
        self._stopped = why
        raise Stop

    def retry(self) -> NoReturn:
        """Gives this try up, waits until some transaction of the store has changed something, and tries again."""
        self._stop(RETRY)

    def cancel(self) -> NoReturn:
        """Gives the transaction up: `atomically` answers None."""
        self._stop(CANCEL)
