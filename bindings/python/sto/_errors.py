"""What can go wrong."""
from __future__ import annotations

from typing import Optional

from . import _library as raw


class Error(Exception):
    """The library could not do it; `status` is its number in sto.h, where it has one."""

    def __init__(self, text: str, status: Optional[int] = None):
        super().__init__(text)
        self.status = status


class Full(Error):
    """A table, tree or vector has no room; nothing changed."""


class Busy(Error):
    """Each of the tries that were allowed met another transaction, or the store cannot be closed yet."""


class Timeout(Error, TimeoutError):
    """The time was over: each try met another transaction, or what the transaction waits for did not come."""


class WrongUse(Error, RuntimeError):
    """A transaction is used after its end or by another thread, or a store after its end or in a forked process."""


class NestedTransaction(WrongUse):
    """A transaction was begun within a transaction."""


class Stop(BaseException):
    """Leads out of a transaction's function. It is no Exception, so that `except Exception` lets it pass; and where it is swallowed
    all the same, the transaction stays stopped."""


def failed(status: int) -> BaseException:
    """Returns what is raised of a status."""
    text = raw.TEXTS[status] if status < len(raw.TEXTS) else "an unknown status"
    return MemoryError(text) if status == raw.NO_MEMORY else Error(f"{text} (status {status})", status)
