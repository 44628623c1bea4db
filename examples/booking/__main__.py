"""python3 examples/booking [THREADS [CALLS [RUNS]]]: books at random, by transactions and over one lock, and says what each took.

An interrupt ends it with status 130, after each thread has ended its call and given its bookings back.
"""
from __future__ import annotations

import signal
import sys
import threading
import time
from typing import List, Optional

import sto
from booking import BookingService
from load import Service, use
from locked import LockedBookingService

ROOMS, DAYS, GUESTS = 8, 7, 32
# Over the lock so many times as many calls are made, so that both are measured for about as long, on a busy machine too.
MORE = 20


def rate_of(service: Service, threads: int, calls: int, stop: threading.Event) -> float:
    """How many calls a second are done."""
    began = time.monotonic()
    made = use(service, threads, calls, 0, stop)  # (nobody waits for a room)
    took = time.monotonic() - began
    if any(service.bookings(guest) for guest in range(GUESTS)):
        raise AssertionError("a booking was not given back")
    service.close()
    return made / took


def run(threads: int, calls: int, runs: int) -> int:
    stop = threading.Event()
    signal.signal(signal.SIGINT, lambda *_: stop.set())
    print(f"{threads} threads, best of {runs} runs, on the {sto.build()} library", flush=True)
    ours = locked = 0.0
    for _ in range(runs):
        ours = max(ours, rate_of(BookingService(ROOMS, DAYS, GUESTS), threads, calls, stop))
        locked = max(locked, rate_of(LockedBookingService(ROOMS, DAYS, GUESTS), threads, MORE * calls, stop))
        if stop.is_set():
            print("interrupted: no two guests have one room, and all rooms were given back")
            return 130
    print(f"transactions: {ours:.0f} calls a second")
    print(f"one lock:     {locked:.0f} calls a second, {locked / ours:.0f} times as many")
    print("no two guests have one room, and all rooms were given back")
    return 0


def numbers(words: List[str]) -> Optional[List[int]]:
    given = [int(it) for it in words if it.isdecimal() and int(it) > 0]
    if len(given) < len(words) or len(given) > 3 or given and given[0] > GUESTS:
        return None
    return given + [4, 4000, 3][len(given):]


def main(words: List[str]) -> int:
    given = numbers(words)
    if given is None:
        print(f"usage: booking [THREADS [CALLS [RUNS]]], with at most {GUESTS} threads", file=sys.stderr)
        return 2
    return run(*given)


if __name__ == "__main__":
    sys.exit(main(sys.argv[1:]))
