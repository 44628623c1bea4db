"""The same service over one lock: to compare its answers with, and what they take.

An interrupt in the midst of a change leaves it half done, and nothing here undoes it.
"""
from __future__ import annotations

import threading
from typing import Dict, List, Optional, Tuple

from booking import Booking, OverLimit, Request, RequestError, check, fault_of, see_same


class LockedBookingService:
    """As `booking.BookingService`, over a lock with a condition for those who wait."""

    def __init__(self, rooms: int, days: int, guests: int, limit: int = 40):
        self.rooms, self.days, self.guests, self.limit = rooms, days, guests, limit
        self._changed = threading.Condition(threading.Lock())
        self._taken = [0] * (rooms * days)
        self._hours = [0] * guests
        self._bookings: Dict[Tuple[int, int], Booking] = {}

    def _free_room(self, request: Request, old: Optional[Booking]) -> Optional[int]:
        for room in range(self.rooms):
            taken = self._taken[request.day * self.rooms + room]
            if old is not None and (old.request.day, old.room) == (request.day, room):
                taken &= ~old.request.hours
            if not taken & request.hours:
                return room
        return None

    def _see_limit(self, request: Request, old: Optional[Booking]) -> None:
        has = self._hours[request.guest] - (old.request.end - old.request.start if old else 0)
        if has + request.end - request.start > self.limit:
            raise OverLimit(f"guest {request.guest} may have {self.limit} hours")

    def _put(self, request: Request, room: int) -> Booking:
        booking = Booking(request, room)
        self._taken[request.day * self.rooms + room] |= request.hours
        self._hours[request.guest] += request.end - request.start
        self._bookings[request.guest, request.number] = booking
        return booking

    def _give(self, booking: Booking) -> None:
        request = booking.request
        self._taken[request.day * self.rooms + booking.room] &= ~request.hours
        self._hours[request.guest] -= request.end - request.start
        del self._bookings[request.guest, request.number]
        self._changed.notify_all()

    def _change(self, request: Request, timeout: Optional[float], is_move: bool) -> Booking:
        check(request, self.days, self.guests)
        done: List[Booking] = []

        def is_done() -> bool:
            # (all is looked at anew each time, since the lock was given away meanwhile)
            old = self._bookings.get((request.guest, request.number))
            if is_move and old is None:
                raise RequestError(f"guest {request.guest} has no booking with the number {request.number}")
            if old is not None and (old.request == request or not is_move):
                see_same(old, request)
                done.append(old)
                return True
            self._see_limit(request, old)
            room = self._free_room(request, old)
            if room is None:
                return False
            if old is not None:
                self._give(old)
            done.append(self._put(request, room))
            return True

        with self._changed:
            if not self._changed.wait_for(is_done, timeout):
                raise TimeoutError("no room was free in time")
        return done[0]

    def book(self, request: Request, timeout: Optional[float] = None) -> Booking:
        return self._change(request, timeout, False)

    def move(self, request: Request, timeout: Optional[float] = None) -> Booking:
        return self._change(request, timeout, True)

    def cancel(self, guest: int, number: int) -> bool:
        with self._changed:
            booking = self._bookings.get((guest, number))
            if booking is not None:
                self._give(booking)
            return booking is not None

    def bookings(self, guest: int) -> List[Booking]:
        with self._changed:
            return sorted(it for it in self._bookings.values() if it.request.guest == guest)

    def fault(self) -> Optional[str]:
        with self._changed:
            return fault_of(self._taken, self._hours, list(self._bookings.values()), self.rooms, self.limit)

    def close(self) -> None:
        """There is nothing to be let go of."""
