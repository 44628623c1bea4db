"""The functions of include/sto.h, by ctypes, and where the library is found."""
from __future__ import annotations

import ctypes
import os
from ctypes import POINTER, Structure, c_char_p, c_int64, c_size_t, c_uint32, c_uint64, c_void_p

OK, NO_MEMORY, OTHER_HANDLE, IN_TRANSACTION, ABORTED, BUSY, NO_WORKER = 0, 1, 4, 7, 9, 10, 12
VALUE, FLAG, ABSENT, FULL, RANGE = 1, 2, 3, 4, 5
BOX, COUNTER, ARRAY, HASH, TREE, VECTOR = range(6)
GET, SET, ADD, TEST, TAKE, PUT, REMOVE, HAS, LEN, NEXT, COUNT, SCAN, PUSH, POP = range(14)
AT_LEAST = 5
CHANGES = frozenset((SET, ADD, TAKE, PUT, REMOVE, PUSH, POP))

TEXTS = (
    "done", "memory was wanting", "the handle holds nothing", "the handle to be filled holds something",
    "the handle holds something else", "no object has this number", "the object does not take this call",
    "the worker is in a transaction", "the worker is in no transaction", "the transaction met another one", "busy",
    "the worker has begun 2^40 transactions", "no worker rests in the store", "a store has from 1 to 65536 workers",
    "no such kind of object", "objects out of order", "an object has no room, or is too large",
    "the objects have 2^32 parts or more", "too little room for the answer", "workers are out",
    "the operation wants another number of numbers of this object",
)


class Handle(Structure):
    _fields_ = [("at", c_void_p), ("full", c_uint64)]


class Shape(Structure):
    _fields_ = [("kind", c_uint32), ("size", c_uint32), ("places", c_uint32), ("unused", c_uint32), ("value", c_int64)]


class Call(Structure):
    _fields_ = [("object", c_uint32), ("operation", c_uint32), ("numbers", c_uint32), ("unused", c_uint32), ("a", c_int64), ("b", c_int64)]


class Reply(Structure):
    _fields_ = [("answer", c_uint32), ("unused", c_uint32), ("value", c_int64)]


class Pair(Structure):
    _fields_ = [("key", c_int64), ("value", c_int64)]


class Row(Structure):
    _fields_ = [("object", c_uint32), ("unused", c_uint32), ("key", c_int64), ("value", c_int64)]


HANDLE, SIZE = POINTER(Handle), POINTER(c_size_t)
FUNCTIONS = {
    "sto_open": [HANDLE, POINTER(Shape), c_size_t, c_uint32], "sto_worker": [HANDLE, HANDLE], "sto_give_back": [HANDLE],
    "sto_close": [HANDLE], "sto_rows": [HANDLE, POINTER(Row), c_size_t, SIZE], "sto_free": [HANDLE], "sto_begin": [HANDLE],
    "sto_ask": [HANDLE, POINTER(Call), POINTER(Reply)], "sto_pairs": [HANDLE, POINTER(Pair), c_size_t, SIZE],
    "sto_walk": [HANDLE, c_uint32, c_int64, POINTER(Pair), c_size_t, SIZE],
    "sto_commit": [HANDLE, POINTER(c_uint64)], "sto_cancel": [HANDLE],
}


def load() -> ctypes.PyDLL:
    """Returns the library that STO_LIBRARY names, or else the one that the wheel brought. Its calls neither block nor wait, so they
    keep the interpreter's lock: no other Python code runs in the midst of one."""
    path = os.environ.get("STO_LIBRARY") or os.path.join(os.path.dirname(os.path.abspath(__file__)), "libsto.so")
    try:
        library = ctypes.PyDLL(path)
    except OSError as error:
        raise ImportError(f"the library of sto is not there: {error}; STO_LIBRARY can name it") from error
    for name, arguments in FUNCTIONS.items():
        function = getattr(library, name)
        function.argtypes, function.restype = arguments, c_uint32
    for name in ("sto_build", "sto_sources"):
        function = getattr(library, name)
        function.argtypes, function.restype = [], c_char_p
    return library


lib = load()


def build() -> str:
    """What the program stands on: "proved", the archive that the prover made, or "plain", the same sources without their contracts
    as rustc compiled them, of which nothing is proved."""
    return lib.sto_build().decode()


def sources() -> str:
    """The sum of the sources of which that was made, as `.ci/sources sto_c` prints it."""
    return lib.sto_sources().decode()
