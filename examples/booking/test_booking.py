from __future__ import annotations

import os
import random
import signal
import subprocess
import sys
import threading
import time
import unittest
from typing import Any, Callable, Iterator, TypeVar

HERE = os.path.dirname(os.path.abspath(__file__))
sys.path.insert(0, HERE)

from booking import Booking, BookingService, OverLimit, Request, RequestError  # noqa: E402
from load import Service, Visitors, use  # noqa: E402
from locked import LockedBookingService  # noqa: E402

A = TypeVar("A")
# How many calls are interrupted at a random moment.
CALLS = int(os.environ.get("BOOKING_CALLS", "1500"))


def both(rooms: int = 2, days: int = 2, guests: int = 4, limit: int = 8) -> Iterator[Service]:
    """Both services, since what is tested holds of each."""
    yield BookingService(rooms, days, guests, limit)
    yield LockedBookingService(rooms, days, guests, limit)


def begun(call: Callable[[], Any]) -> threading.Thread:
    thread = threading.Thread(target=call)
    thread.start()
    return thread


class Interrupts:
    """Makes calls that are interrupted at random moments, and each of them again until its answer comes."""

    def __init__(self) -> None:
        self.random = random.Random(5)
        self.count = 0

    def __enter__(self) -> "Interrupts":
        self.old = signal.signal(signal.SIGALRM, signal.default_int_handler)
        return self

    def __exit__(self, *_: object) -> None:
        signal.setitimer(signal.ITIMER_REAL, 0)
        signal.signal(signal.SIGALRM, self.old)

    def once(self, call: Callable[[], A], most: float) -> A:
        signal.setitimer(signal.ITIMER_REAL, 0.00002 + self.random.random() * most)
        try:
            return call()
        finally:
            signal.setitimer(signal.ITIMER_REAL, 0)

    def until_answered(self, call: Callable[[], A], most: float = 0.0005) -> A:
        while True:
            try:
                return self.once(call, most)
            except KeyboardInterrupt:
                self.count += 1
                most *= 1.2  # (on a busy machine a call takes longer)


class Calls(unittest.TestCase):
    def test_first_room_that_is_free(self) -> None:
        for service in both():
            first = service.book(Request(0, 1, 0, 9, 12))
            second = service.book(Request(1, 1, 0, 11, 13))
            third = service.book(Request(2, 1, 0, 12, 14))
            self.assertEqual([it.room for it in (first, second, third)], [0, 1, 0])
            self.assertEqual(service.bookings(1), [second])
            self.assertIsNone(service.fault())
            self.assertTrue(service.cancel(1, 1))
            self.assertFalse(service.cancel(1, 1))
            self.assertEqual(service.bookings(1), [])
            self.assertIsNone(service.fault())
            service.close()

    def test_same_request_gets_same_booking(self) -> None:
        for service in both():
            request = Request(0, 7, 1, 0, 24)
            with self.assertRaises(OverLimit):
                service.book(request)
            request = request._replace(end=8)
            self.assertEqual(service.book(request), Booking(request, 0))
            self.assertEqual(service.book(request), Booking(request, 0))
            with self.assertRaises(RequestError):
                service.book(request._replace(end=7))
            self.assertEqual(len(service.bookings(0)), 1)

    def test_what_is_not_there_is_refused(self) -> None:
        good = Request(0, 0, 0, 0, 1)
        for service in both():
            for wrong in ({"guest": 4}, {"guest": -1}, {"number": -1}, {"number": 1 << 16}, {"day": 2}, {"start": 1}, {"start": -1}, {"end": 25}):
                with self.assertRaises(RequestError):
                    service.book(good._replace(**wrong))
            with self.assertRaises(RequestError):
                service.move(good)
            self.assertIsNone(service.fault())

    def test_move_keeps_the_old_hours_until_it_has_the_new_ones(self) -> None:
        for service in both(rooms=1):
            old = service.book(Request(0, 1, 0, 8, 10))
            service.book(Request(1, 1, 0, 12, 14))
            with self.assertRaises(TimeoutError):
                service.move(Request(0, 1, 0, 13, 15), timeout=0.01)
            self.assertEqual(service.bookings(0), [old])
            # hours of its own are free for it
            self.assertEqual(service.move(Request(0, 1, 0, 9, 12), timeout=60).room, 0)
            self.assertEqual(service.move(Request(0, 1, 0, 9, 12), timeout=60).room, 0)
            with self.assertRaises(OverLimit):
                service.move(Request(0, 1, 1, 0, 9), timeout=60)
            self.assertIsNone(service.fault())

    def test_deadline(self) -> None:
        for service in both(rooms=1):
            service.book(Request(0, 1, 0, 8, 10))
            began = time.monotonic()
            with self.assertRaises(TimeoutError):
                service.book(Request(1, 1, 0, 9, 11), timeout=0.05)
            self.assertGreaterEqual(time.monotonic() - began, 0.05)
            self.assertEqual(service.bookings(1), [])
            # who did not get it in time is not in the way
            self.assertTrue(service.cancel(0, 1))
            service.book(Request(2, 1, 0, 8, 11), timeout=5)

    def test_who_waits_gets_the_room(self) -> None:
        for service in both(rooms=1):
            service.book(Request(0, 1, 0, 8, 10))
            waiting = [begun(lambda at=at: service.book(Request(at, 1, 0, 8 + at % 2, 10), timeout=60)) for at in (1, 2, 3)]
            for _ in range(4):
                has = [it for guest in range(4) for it in service.bookings(guest)]
                while not has:
                    time.sleep(0.001)
                    has = [it for guest in range(4) for it in service.bookings(guest)]
                self.assertEqual(len(has), 1)
                self.assertTrue(service.cancel(has[0].request.guest, 1))
            for it in waiting:
                it.join()
            self.assertIsNone(service.fault())
            service.close()


class Threads(unittest.TestCase):
    def test_on_one_thread_both_answer_the_same(self) -> None:
        ours, locked = (Visitors(it, range(4), 3, 0) for it in both(limit=12))
        for _ in range(600):
            ours.act()
            locked.act()
            self.assertEqual((ours.has, ours.refused), (locked.has, locked.refused))
        for guest in range(4):
            self.assertEqual(ours.service.bookings(guest), locked.service.bookings(guest))
        self.assertGreater(ours.refused, 0)
        self.assertIsNone(ours.service.fault())

    def test_on_threads_no_two_guests_have_one_room(self) -> None:
        for service in both(rooms=1, guests=8, limit=24):
            self.assertEqual(use(service, 4, 1200, 0.002, threading.Event()), 1200)
            self.assertEqual([service.bookings(guest) for guest in range(8)], [[]] * 8)
            service.close()


class Interrupted(unittest.TestCase):
    def test_no_guest_is_lost(self) -> None:
        """One guest whose calls are interrupted at random moments, beside two threads of others: each request is booked once, what was
        booked is there, and all others go on."""
        service = BookingService(rooms=2, days=1, guests=9, limit=24)
        stop = threading.Event()
        made = []
        beside = begun(lambda: made.append(use(service, 2, 1 << 40, 0.001, stop)))
        rand = random.Random(11)

        def try_to(call: Callable[..., Booking], request: Request) -> bool:
            """Whether the guest got what it asked for in time."""
            try:
                return call(request, 0.002).request == request
            except TimeoutError:
                return False

        try:
            with Interrupts() as interrupts:
                ends = time.monotonic() + 15  # (where threads wait long for one another, as on a busy machine)
                for number in range(CALLS // 3):
                    if time.monotonic() > ends:
                        break
                    start = rand.randrange(20)
                    request = Request(8, number, 0, start, start + 2)
                    has = interrupts.until_answered(lambda: try_to(service.book, request))
                    self.assertEqual([it.request for it in service.bookings(8)], [request] if has else [])
                    if has:
                        other = request._replace(start=(start + 5) % 20, end=(start + 5) % 20 + 2)
                        moved = interrupts.until_answered(lambda: try_to(service.move, other))
                        self.assertEqual([it.request for it in service.bookings(8)], [other if moved else request])
                    interrupts.until_answered(lambda: service.cancel(8, number))
                    self.assertEqual(service.bookings(8), [])
        finally:
            stop.set()
            beside.join()
        self.assertGreater(interrupts.count, 0)
        self.assertGreater(made[0], 0)
        self.assertIsNone(service.fault())
        service.close()

    def test_who_waits_can_be_interrupted(self) -> None:
        """A guest that waits for a room is interrupted again and again, and another one gets it."""
        service = BookingService(rooms=1, days=1, guests=2)
        service.book(Request(0, 1, 0, 8, 10))
        with Interrupts() as interrupts:
            for number in range(100):
                with self.assertRaises(KeyboardInterrupt):
                    interrupts.once(lambda: service.book(Request(1, number, 0, 9, 11)), 0.003)
        self.assertEqual(service.bookings(1), [])
        service.cancel(0, 1)
        service.book(Request(1, 1, 0, 9, 11), timeout=5)
        self.assertIsNone(service.fault())
        service.close()

    def test_program_ends_by_an_interrupt(self) -> None:
        for wait in (0, 0.3):
            words = [sys.executable, "-B", HERE, "3", "1000000"]
            with subprocess.Popen(words, stdout=subprocess.PIPE, text=True) as program:
                assert program.stdout is not None
                self.assertIn("3 threads", program.stdout.readline())
                time.sleep(wait)
                program.send_signal(signal.SIGINT)
                said = program.communicate(timeout=60)[0]
            self.assertIn("all rooms were given back", said)
            self.assertEqual(program.returncode, 130)


if __name__ == "__main__":
    unittest.main()
