"""Guests who book, move and cancel at random, on threads."""
from __future__ import annotations

import random
import threading
from typing import List, Optional, Protocol, Tuple

from booking import HOURS, Booking, OverLimit, Request


class Service(Protocol):
    """What both services are."""

    days: int
    guests: int

    def book(self, request: Request, timeout: Optional[float] = None) -> Booking: ...

    def move(self, request: Request, timeout: Optional[float] = None) -> Booking: ...

    def cancel(self, guest: int, number: int) -> bool: ...

    def bookings(self, guest: int) -> List[Booking]: ...

    def fault(self) -> Optional[str]: ...

    def close(self) -> None: ...


class Visitors:
    """Some guests of a service, all of them on one thread, and the numbers of their bookings."""

    def __init__(self, service: Service, guests: range, seed: int, patience: float):
        self.service, self.guests, self.patience = service, guests, patience
        self.random = random.Random(seed)
        self.has: List[Tuple[int, int]] = []
        self.next_number = 0
        self.refused = 0

    def request(self, guest: int, number: int) -> Request:
        start = self.random.randrange(HOURS - 3)
        return Request(guest, number, self.random.randrange(self.service.days), start, start + 1 + self.random.randrange(3))

    def act(self) -> None:
        """Makes one call. That there is no room in time, or that a guest is over the limit, is an answer as well."""
        chance = self.random.random()
        try:
            if self.has and chance < 0.5:
                guest, number = self.has.pop(self.random.randrange(len(self.has)))
                if not self.service.cancel(guest, number):
                    raise AssertionError(f"the booking {number} of guest {guest} is lost")
            elif self.has and chance < 0.6:
                self.service.move(self.request(*self.random.choice(self.has)), self.patience)
            else:
                guest, number = self.random.choice(self.guests), self.next_number
                self.next_number += 1
                self.service.book(self.request(guest, number), self.patience)
                self.has.append((guest, number))
        except (OverLimit, TimeoutError):
            self.refused += 1

    def leave(self) -> None:
        """Gives all bookings back."""
        while self.has:
            self.service.cancel(*self.has.pop())


def use(service: Service, threads: int, calls: int, patience: float, stop: threading.Event) -> int:
    """Makes so many calls, shared by threads, with a look for faults now and then, until `stop` is set. Returns how many were made."""
    wrong: List[BaseException] = []
    made: List[int] = []

    def visit(visitors: Visitors) -> None:
        done = 0
        try:
            while done < calls // threads and not stop.is_set():
                visitors.act()
                done += 1
                fault = service.fault() if done % 256 == 0 else None
                if fault:
                    raise AssertionError(fault)
            visitors.leave()
        except BaseException as error:  # told below, by the thread that waits
            wrong.append(error)
            stop.set()
        made.append(done)

    share = service.guests // threads
    each = [Visitors(service, range(at * share, (at + 1) * share), at, patience) for at in range(threads)]
    started = [threading.Thread(target=visit, args=(it,)) for it in each]
    for thread in started:
        thread.start()
    for thread in started:
        thread.join()
    if wrong:
        raise wrong[0]
    fault = service.fault()
    if fault:
        raise AssertionError(fault)
    return sum(made)
