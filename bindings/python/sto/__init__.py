"""Transactions over shared objects.

    import sto

    with sto.Store() as store:
        alice, bob = store.box(100), store.box(0)

        def move(tx, amount):
            if alice[tx] < amount:
                tx.retry()                  # waits until something has changed, and runs again
            alice[tx] -= amount
            bob[tx] += amount

        store.atomically(move, 30, timeout=1.0)

Objects are declared in any order, before the first transaction. Any thread may run transactions. What a transaction does takes
effect as a whole or not at all; where it meets another one its function is run again.
"""
from ._errors import Busy, Error, Full, NestedTransaction, Timeout, WrongUse
from ._library import build, sources
from ._objects import Array, Box, Counter, Table, Tree, Vector
from ._store import Snapshot, Stats, Store
from ._transaction import Transaction

__version__ = "0.1.0"
__all__ = [
    "Array", "Box", "Busy", "Counter", "Error", "Full", "NestedTransaction", "Snapshot", "Stats", "Store", "Table", "Timeout",
    "Transaction", "Tree", "Vector", "WrongUse", "build", "sources",
]
