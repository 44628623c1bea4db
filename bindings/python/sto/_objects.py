"""Objects of a store, each of a type of its own."""
from __future__ import annotations

import operator
from typing import TYPE_CHECKING, Any, List, Optional, Tuple

from . import _library as raw
from ._errors import Full
from ._transaction import Transaction

if TYPE_CHECKING:
    from ._store import Store

LEAST, MOST, MASK = -(1 << 63), (1 << 63) - 1, (1 << 64) - 1


def word(value: int) -> int:
    """Returns a number of 64 bits; another one is an OverflowError."""
    value = operator.index(value)
    if not LEAST <= value <= MOST:
        raise OverflowError(f"{value} is no number of 64 bits")
    return value


def size(value: int) -> int:
    value = operator.index(value)
    if not 0 <= value < 1 << 32:
        raise ValueError(f"{value} is no size")
    return value


def turned(key: int, factor: int) -> int:
    x = key & MASK
    x = ((x ^ x >> 32) * factor) & MASK
    x ^= x >> 32
    return x - (1 << 64) if x >> 63 else x


def mixed(key: int) -> int:
    """A hash table finds a key's bucket by the remainder, so that keys in steps would crowd few: keys are mixed, one to one."""
    return turned(word(key), 0x9E3779B97F4A7C15)


def unmixed(key: int) -> int:
    return turned(key, 0xF1DE83E19937733D)


class Object:
    __slots__ = ("_store", "_index", "_number", "_size")

    def __init__(self, store: "Store", index: int, size_of: int):
        self._store, self._index, self._number, self._size = store, index, -1, size_of

    def __repr__(self) -> str:
        return f"<sto.{type(self).__name__} {self._index}>"


class Box(Object):
    """One number: `box[tx]`."""

    __slots__ = ()

    def __getitem__(self, tx: Transaction) -> int:
        return tx._ask(self, raw.GET).value

    def __setitem__(self, tx: Transaction, value: int) -> None:
        tx._ask(self, raw.SET, word(value))


class Counter(Object):
    """One number that many transactions add to at once."""

    __slots__ = ()

    def __getitem__(self, tx: Transaction) -> int:
        return tx._ask(self, raw.GET).value

    def add(self, tx: Transaction, delta: int = 1) -> None:
        if tx._ask(self, raw.ADD, word(delta)).answer == raw.RANGE:
            raise OverflowError("the sum is no number of 64 bits")

    def take(self, tx: Transaction, amount: int = 1) -> bool:
        """Takes from it where it has as much, and answers whether it had."""
        reply = tx._ask(self, raw.TAKE, word(amount))
        if reply.answer == raw.RANGE:
            raise OverflowError("the difference is no number of 64 bits")
        return bool(reply.value)

    def at_least(self, tx: Transaction, amount: int) -> bool:
        """Whether it is at least so much. Other transactions may change it meanwhile, as long as the answer stays."""
        return bool(tx._ask(self, raw.TEST, raw.AT_LEAST, word(amount)).value)


class Array(Object):
    """A fixed number of numbers: `array[tx, place]`."""

    __slots__ = ()

    def __len__(self) -> int:
        return self._size

    def _place(self, at: int) -> int:
        at = operator.index(at)
        if not 0 <= at < self._size:
            raise IndexError(f"there is no place {at}")
        return at

    def __getitem__(self, at: Tuple[Transaction, int]) -> int:
        tx, place = at
        return tx._ask(self, raw.GET, self._place(place)).value

    def __setitem__(self, at: Tuple[Transaction, int], value: int) -> None:
        tx, place = at
        tx._ask(self, raw.SET, self._place(place), word(value))

    def add(self, tx: Transaction, place: int, delta: int) -> None:
        if tx._ask(self, raw.ADD, self._place(place), word(delta)).answer == raw.RANGE:
            raise OverflowError("the sum is no number of 64 bits")


class Keyed(Object):
    """Keys with values."""

    __slots__ = ()
    _key = staticmethod(word)

    def get(self, tx: Transaction, key: int, default: Any = None) -> Any:
        reply = tx._ask(self, raw.GET, self._key(key))
        return default if reply.answer == raw.ABSENT else reply.value

    def __getitem__(self, at: Tuple[Transaction, int]) -> int:
        tx, key = at
        reply = tx._ask(self, raw.GET, self._key(key))
        if reply.answer == raw.ABSENT:
            raise KeyError(key)
        return reply.value

    def __setitem__(self, at: Tuple[Transaction, int], value: int) -> None:
        tx, key = at
        if tx._ask(self, raw.PUT, self._key(key), word(value)).answer == raw.FULL:
            raise Full(f"{self!r} has no room for {key}")

    def __delitem__(self, at: Tuple[Transaction, int]) -> None:
        tx, key = at
        if not self.discard(tx, key):
            raise KeyError(key)

    def discard(self, tx: Transaction, key: int) -> bool:
        """Removes a key, and answers whether it was there."""
        return bool(tx._ask(self, raw.REMOVE, self._key(key)).value)

    def has(self, tx: Transaction, key: int) -> bool:
        return tx._ask(self, raw.GET, self._key(key)).answer != raw.ABSENT

    def len(self, tx: Transaction) -> int:
        return tx._ask(self, raw.LEN).value


class Table(Keyed):
    """Keys with values, in no order: `table[tx, key]`."""

    __slots__ = ()
    _key = staticmethod(mixed)


class Tree(Keyed):
    """Keys with values, in the order of the keys: `tree[tx, key]`."""

    __slots__ = ()

    def items(self, tx: Transaction, low: Optional[int] = None, high: Optional[int] = None, limit: Optional[int] = None) -> List[Tuple[int, int]]:
        """The keys from `low` to `high`, both of them with it, and their values; at most `limit`, and then no key beyond them is read."""
        first, last = LEAST if low is None else word(low), MOST if high is None else word(high)
        if limit is None:
            return tx._pairs(tx._ask(self, raw.SCAN, first, last).value)
        if limit < 0:
            raise ValueError("a limit is at least 0")
        return [(key, value) for key, value in tx._walk(self, first, limit) if key <= last]

    def next(self, tx: Transaction, key: int) -> Optional[int]:
        """The least key that is at least this one."""
        reply = tx._ask(self, raw.NEXT, word(key))
        return None if reply.answer == raw.ABSENT else reply.value

    def count(self, tx: Transaction, low: int, high: int) -> int:
        return tx._ask(self, raw.COUNT, word(low), word(high)).value


class Vector(Object):
    """Numbers, one behind the other: `vector[tx, place]`."""

    __slots__ = ()

    def __getitem__(self, at: Tuple[Transaction, int]) -> int:
        tx, place = at
        reply = tx._ask(self, raw.GET, word(place))
        if reply.answer == raw.ABSENT:
            raise IndexError(f"there is no place {place}")
        return reply.value

    def push(self, tx: Transaction, value: int) -> None:
        if tx._ask(self, raw.PUSH, word(value)).answer == raw.FULL:
            raise Full(f"{self!r} has no room")

    def pop(self, tx: Transaction) -> int:
        reply = tx._ask(self, raw.POP)
        if reply.answer == raw.ABSENT:
            raise IndexError("the vector is empty")
        return reply.value

    def len(self, tx: Transaction) -> int:
        return tx._ask(self, raw.LEN).value
