"""The store, and what it held at one moment."""
from __future__ import annotations

import ctypes
import functools
import operator
import os
import threading
import time
from typing import Any, Callable, Dict, Iterator, List, Mapping, NamedTuple, Optional, Tuple, TypeVar, Union

from . import _library as raw
from ._errors import Busy, WrongUse, failed
from ._library import lib
from ._objects import Array, Box, Counter, Keyed, Object, Table, Tree, Vector, size, unmixed, word
from ._run import Run
from ._transaction import Lease, Transaction, Worker

A = TypeVar("A")
Content = Union[int, List[int], Dict[int, int]]
byref = ctypes.byref
forks = 0


def count_fork() -> None:
    global forks
    forks += 1


if hasattr(os, "register_at_fork"):
    os.register_at_fork(after_in_child=count_fork)


class Stats(NamedTuple):
    """What a store has done so far. The tries are the commits, the aborts, the retries and those given up, as long as none is under way
    and no interrupt came."""

    commits: int
    tries: int
    aborts_in_calls: int
    aborts_at_commit: int
    retries: int
    given_up: int
    alone: int


class Snapshot(Mapping[Object, Content]):
    """What objects held at one moment: numbers, lists and dicts; and the moment's place in the order."""

    def __init__(self, content: Dict[Object, Content], place: Optional[int]):
        self._content, self.place = content, place

    def __getitem__(self, thing: Object) -> Content:
        return self._content[thing]

    def __iter__(self) -> Iterator[Object]:
        return iter(self._content)

    def __len__(self) -> int:
        return len(self._content)


def content_of(tx: Transaction, thing: Object) -> Content:
    """Returns what an object holds, read within a transaction."""
    if isinstance(thing, (Box, Counter)):
        return thing[tx]
    if isinstance(thing, Array):
        return [thing[tx, at] for at in range(len(thing))]
    if isinstance(thing, Vector):
        return [thing[tx, at] for at in range(thing.len(tx))]
    if isinstance(thing, Tree):
        return dict(thing.items(tx))
    raise TypeError(f"{thing!r} cannot be gone through while the store is open")


def content_of_rows(things: List[Object], rows: Any) -> Dict[Object, Content]:
    """Returns what the objects held, by the rows of a closed store."""
    content: Dict[Object, Any] = {}
    for thing in things:
        content[thing] = [] if isinstance(thing, (Array, Vector)) else {} if isinstance(thing, Keyed) else 0
    for row in rows:
        thing = things[row.object]
        if isinstance(thing, (Array, Vector)):
            content[thing].append(row.value)
        elif isinstance(thing, Keyed):
            content[thing][unmixed(row.key) if isinstance(thing, Table) else row.key] = row.value
        else:
            content[thing] = row.value
    return content


class Store:
    """A store of objects. It is opened by its first transaction. Any thread may use it; up to `workers` transactions run at the same
    moment, and more threads than that wait for one another."""

    def __init__(self, workers: int = 64):
        workers = operator.index(workers)
        if not 1 <= workers <= 65536:
            raise ValueError("a store has from 1 to 65536 workers")
        self._declared: List[List[Tuple[Object, raw.Shape]]] = [[] for _ in range(6)]
        self._handle = raw.Handle()
        self._state = "new"
        self._lock = threading.RLock()
        self._local = threading.local()
        self._workers = [Worker() for _ in range(workers)]
        self._waiting: Dict[Lease, Any] = {}
        self._alone: Optional[Worker] = None
        self._forks = forks

    # Declaring

    def _declare(self, made: Any, kind: int, size_of: int, places: int, value: int) -> Any:
        shape = raw.Shape(kind, size_of, places, 0, value)
        with self._lock:
            if self._state != "new":
                raise WrongUse("objects are declared before the first transaction")
            thing = made(self, len(self._declared[kind]), size_of)
            self._declared[kind].append((thing, shape))
            return thing

    def box(self, value: int = 0) -> Box:
        """One number."""
        return self._declare(Box, raw.BOX, 0, 0, word(value))

    def counter(self, value: int = 0) -> Counter:
        """One number that many transactions add to at once."""
        return self._declare(Counter, raw.COUNTER, 0, 0, word(value))

    def array(self, size_of: int, value: int = 0) -> Array:
        """So many numbers, each of which begins as `value`."""
        return self._declare(Array, raw.ARRAY, size(size_of), 0, word(value))

    def table(self, keys: int) -> Table:
        """A table with room for about so many keys; it does not grow."""
        return self._declare(Table, raw.HASH, max(1, -(-size(keys) // 4)), 16, 0)

    def tree(self, keys: int) -> Tree:
        """A tree with room for so many keys: a call takes time by that, so it is for some hundreds."""
        return self._declare(Tree, raw.TREE, max(1, -(-size(keys) // 4)), 0, 0)

    def vector(self, room: int) -> Vector:
        """An empty vector with room for so many numbers."""
        return self._declare(Vector, raw.VECTOR, size(room), 0, 0)

    def _things(self) -> List[Object]:
        return [thing for of_kind in self._declared for thing, _ in of_kind]

    def _see_process(self) -> None:
        if self._forks != forks:
            raise WrongUse("the store was made before this process was forked")

    def _open(self) -> None:
        """Opens the store where that is not done yet."""
        self._see_process()
        with self._lock:
            if self._state == "open":
                return
            if self._state != "new":
                raise WrongUse("the store is closed")
            shapes = [shape for of_kind in self._declared for _, shape in of_kind]
            for number, thing in enumerate(self._things()):
                thing._number = number
            if not self._handle.full:  # (an interrupt may have come behind the call)
                status = lib.sto_open(byref(self._handle), (raw.Shape * max(1, len(shapes)))(*shapes), len(shapes), len(self._workers))
                if status:
                    raise failed(status)
            self._state = "open"

    # Workers

    def _lease(self) -> Lease:
        try:
            return self._local.lease
        except AttributeError:
            lease = self._local.lease = Lease()
            return lease

    def _take_free(self, lease: Lease) -> Optional[Worker]:
        """Takes a worker that no other thread has, if there is one: that which the thread had last, if it can."""
        with self._lock:
            if self._state != "open":
                raise WrongUse("the store is closed")
            last = lease.last
            if last is None or last.owner not in (None, lease):
                last = next((it for it in self._workers if it.owner in (None, lease)), None)
            if last is None:
                return None
            if not last.handle.full:
                status = lib.sto_worker(byref(self._handle), last.at)
                if status:
                    raise failed(status)
            # (one after the other, with no call in between: an interrupt leaves no worker with nobody's thread)
            lease.last = lease.worker = last
            last.owner = lease
            return last

    def _take(self, run: Run) -> Worker:
        """Takes a worker, and waits for one where all are taken."""
        if self._state != "open" or self._forks != forks:
            self._open()
        pause = 0.0001
        while True:
            worker = self._take_free(run.lease)
            if worker is not None:
                return worker
            run.see_time()
            time.sleep(pause)
            pause = min(2 * pause, 0.002)

    def _ring(self) -> None:
        """Tells the transactions that wait that something has changed."""
        for bell in list(self._waiting.values()):
            try:
                bell.release()
            except RuntimeError:  # it rings already
                pass

    # Transactions

    def atomically(self, function: Callable[..., A], *given: Any, timeout: Optional[float] = None, tries: Optional[int] = None) -> A:
        """Runs function(tx, *given) as a transaction, and answers what it answered.

        It may run several times. After sixteen tries that met others no other try begins until it is done; with `tries`, it ends by
        Busy after so many, and with `timeout`, by Timeout after so many seconds. An exception that leaves it gives the transaction
        up.
        """
        return Run(self, function, given, timeout, tries).to_end()[0]

    def placed(self, function: Callable[..., A], *given: Any, timeout: Optional[float] = None, tries: Optional[int] = None) -> Tuple[A, int]:
        """As `atomically`, with the transaction's place in the order of all."""
        answer, place = Run(self, function, given, timeout, tries).to_end()
        return answer, place if place is not None else -1

    def transaction(self, function: Callable[..., A]) -> Callable[..., A]:
        """A decorator: a call of the function is a transaction."""

        @functools.wraps(function, assigned=("__module__", "__name__", "__qualname__", "__doc__"))
        def run(*given: Any, **named: Any) -> A:
            return self.atomically(lambda tx: function(tx, *given, **named))

        return run

    def snapshot(self, *objects: Object, timeout: Optional[float] = None) -> Snapshot:
        """What these objects, or all but tables, hold at one moment."""
        things = objects or tuple(it for it in self._things() if not isinstance(it, Table))
        return Snapshot(*self.placed(lambda tx: {it: content_of(tx, it) for it in things}, timeout=timeout))

    def stats(self) -> Stats:
        """What was done so far, of all threads."""
        return Stats(*(sum(getattr(it, name) for it in self._workers) for name in Stats._fields))

    # Closing

    def close(self) -> Snapshot:
        """Closes the store, and answers what its objects held at the end. While a transaction is under way: Busy. Where an interrupt
        comes, it can be called again."""
        self._see_process()
        with self._lock:
            if self._state == "new":
                self._open()
            if self._state not in ("open", "closing"):
                raise WrongUse("the store is closed")
            if any(it.tx is not None for it in self._workers):
                raise Busy("a transaction is under way")
            self._state = "closing"
            self._give_back()
            status = lib.sto_close(byref(self._handle))
            if status not in (raw.OK, raw.OTHER_HANDLE):  # (the latter: it is closed already)
                self._state = "open" if self._handle.full else "closed"
                raise failed(status)
            snapshot = Snapshot(content_of_rows(self._things(), self._rows()), None)
            self._free()
            return snapshot

    def _give_back(self) -> None:
        for worker in self._workers:
            if worker.handle.full:
                lib.sto_cancel(worker.at)
                lib.sto_give_back(worker.at)

    def _rows(self) -> Any:
        count = ctypes.c_size_t()
        lib.sto_rows(byref(self._handle), (raw.Row * 1)(), 0, byref(count))
        rows = (raw.Row * max(1, count.value))()
        status = lib.sto_rows(byref(self._handle), rows, count.value, byref(count))
        if status:
            raise failed(status)
        return rows[: count.value]

    def _free(self) -> None:
        self._state = "closed"
        for worker in self._workers:
            lib.sto_free(worker.at)
        lib.sto_free(byref(self._handle))

    def __enter__(self) -> "Store":
        return self

    def __exit__(self, kind: Any, error: Any, trace: Any) -> None:
        self._see_process()
        with self._lock:
            if self._state == "closed":
                return
            if any(it.tx is not None for it in self._workers):
                if kind is None:
                    raise Busy("a transaction is under way")
                return
            self._free()

    def __del__(self) -> None:
        if getattr(self, "_workers", None) is not None and self._forks == forks and lib is not None:
            self._free()
