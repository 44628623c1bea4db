"""A booking service: guests book a room from one hour to another, and wait for one until a deadline.

    service = BookingService(rooms=3, days=2, guests=10)
    booking = service.book(Request(guest=4, number=1, day=0, start=9, end=12), timeout=2.0)
    service.cancel(booking.request.guest, booking.request.number)

Each call is one transaction. A request has a number that its guest has chosen. Where an interrupt hides the answer of a call, the guest
makes the same call again: what was done by then is not done twice.
"""
from __future__ import annotations

from typing import Dict, List, NamedTuple, Optional, Tuple

import sto

HOURS = 24
NUMBERS = 1 << 16


class Request(NamedTuple):
    """What a guest wants: any room, on a day, from the hour `start` until the hour `end`."""

    guest: int
    number: int
    day: int
    start: int
    end: int

    @property
    def hours(self) -> int:
        """The hours as bits."""
        return (1 << self.end) - (1 << self.start)


class Booking(NamedTuple):
    """A request, and the room that it got."""

    request: Request
    room: int


class RequestError(ValueError):
    """A request names what is not there, or its number is taken by another request of the guest."""


class OverLimit(Exception):
    """The guest would have more hours than a guest may have."""


def check(request: Request, days: int, guests: int) -> None:
    """Refuses a request that names what is not there."""
    if not 0 <= request.guest < guests:
        raise RequestError(f"there is no guest {request.guest}")
    if not 0 <= request.number < NUMBERS:
        raise RequestError(f"the number {request.number} is out of range")
    if not 0 <= request.day < days:
        raise RequestError(f"there is no day {request.day}")
    if not 0 <= request.start < request.end <= HOURS:
        raise RequestError(f"there are no hours from {request.start} to {request.end}")


def see_same(booking: Booking, request: Request) -> None:
    """Refuses a request whose number another one of the guest has."""
    if booking.request != request:
        raise RequestError(f"guest {request.guest} has another booking with the number {request.number}")


def key_of(guest: int, number: int) -> int:
    return guest * NUMBERS + number


def packed(booking: Booking) -> int:
    """A booking as one number, without its key."""
    request = booking.request
    return ((booking.room << 32 | request.day) * 32 + request.start) * 32 + request.end


def unpacked(key: int, word: int) -> Booking:
    guest, number = divmod(key, NUMBERS)
    word, end = divmod(word, 32)
    word, start = divmod(word, 32)
    return Booking(Request(guest, number, word & 0xFFFF_FFFF, start, end), word >> 32)


def fault_of(taken: List[int], hours: List[int], bookings: List[Booking], rooms: int, limit: int) -> Optional[str]:
    """What is wrong, if anything, with the hours of each room and day that are taken, the hours of each guest, and all bookings."""
    booked: Dict[int, int] = {}
    counts = [0] * len(hours)
    for booking in bookings:
        request = booking.request
        place = request.day * rooms + booking.room
        if booked.get(place, 0) & request.hours:
            return f"two guests have room {booking.room} on day {request.day}"
        booked[place] = booked.get(place, 0) | request.hours
        counts[request.guest] += request.end - request.start
    if [booked.get(place, 0) for place in range(len(taken))] != taken:
        return "hours are taken that nobody has, or the other way round"
    if counts != hours:
        return f"guests have {counts} hours, and {hours} are counted"
    return "a guest is over the limit" if max(hours) > limit else None


class BookingService:
    """Rooms with their hours, the hours of each guest, and the bookings, which are ordered by guest and number."""

    def __init__(self, rooms: int, days: int, guests: int, limit: int = 40, bookings: int = 128):
        self.rooms, self.days, self.guests, self.limit = rooms, days, guests, limit
        self.store = sto.Store()
        self._taken = self.store.array(rooms * days)
        self._hours = self.store.array(guests)
        self._bookings = self.store.tree(bookings)

    # Steps of transactions

    def _find(self, tx: sto.Transaction, guest: int, number: int) -> Optional[Booking]:
        key = key_of(guest, number)
        word = self._bookings.get(tx, key)
        return None if word is None else unpacked(key, word)

    def _take(self, tx: sto.Transaction, request: Request) -> Booking:
        """Takes the first room that is free, or waits until something has changed."""
        length = request.end - request.start
        if self._hours[tx, request.guest] + length > self.limit:
            raise OverLimit(f"guest {request.guest} may have {self.limit} hours")
        for room in range(self.rooms):
            place = request.day * self.rooms + room
            if not self._taken[tx, place] & request.hours:
                booking = Booking(request, room)
                self._taken[tx, place] |= request.hours
                self._hours.add(tx, request.guest, length)
                self._bookings[tx, key_of(request.guest, request.number)] = packed(booking)
                return booking
        tx.retry()

    def _give(self, tx: sto.Transaction, booking: Booking) -> None:
        request = booking.request
        self._taken[tx, request.day * self.rooms + booking.room] &= ~request.hours
        self._hours.add(tx, request.guest, request.start - request.end)
        del self._bookings[tx, key_of(request.guest, request.number)]

    # What guests call

    def book(self, request: Request, timeout: Optional[float] = None) -> Booking:
        """Books a room, and waits until one is free: `timeout` seconds at most, and then it is a TimeoutError. A request that was booked
        already gets the same booking."""
        check(request, self.days, self.guests)

        def transaction(tx: sto.Transaction) -> Booking:
            booking = self._find(tx, request.guest, request.number)
            if booking is None:
                return self._take(tx, request)
            see_same(booking, request)
            return booking

        return self.store.atomically(transaction, timeout=timeout)

    def move(self, request: Request, timeout: Optional[float] = None) -> Booking:
        """Books other hours for the number of a booking. The old hours stay the guest's until the new ones are."""
        check(request, self.days, self.guests)

        def transaction(tx: sto.Transaction) -> Booking:
            booking = self._find(tx, request.guest, request.number)
            if booking is None:
                raise RequestError(f"guest {request.guest} has no booking with the number {request.number}")
            if booking.request == request:
                return booking
            self._give(tx, booking)
            return self._take(tx, request)

        return self.store.atomically(transaction, timeout=timeout)

    def cancel(self, guest: int, number: int) -> bool:
        """Gives a booking back. Whether there was one."""

        def transaction(tx: sto.Transaction) -> bool:
            booking = self._find(tx, guest, number)
            if booking is not None:
                self._give(tx, booking)
            return booking is not None

        return self.store.atomically(transaction)

    def bookings(self, guest: int) -> List[Booking]:
        """The bookings of a guest, in the order of their numbers."""
        low = key_of(guest, 0)
        rows: List[Tuple[int, int]] = self.store.atomically(lambda tx: self._bookings.items(tx, low, low + NUMBERS - 1))
        return [unpacked(*row) for row in rows]

    def fault(self) -> Optional[str]:
        """What is wrong at one moment, if anything."""

        def transaction(tx: sto.Transaction) -> Tuple[List[int], List[int], List[Tuple[int, int]]]:
            taken = [self._taken[tx, place] for place in range(len(self._taken))]
            hours = [self._hours[tx, guest] for guest in range(self.guests)]
            return taken, hours, self._bookings.items(tx)

        taken, hours, rows = self.store.atomically(transaction)
        return fault_of(taken, hours, [unpacked(*row) for row in rows], self.rooms, self.limit)

    def close(self) -> None:
        """Ends the service; while a call is under way it is `sto.Busy`."""
        self.store.close()
