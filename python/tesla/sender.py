"""A sender of one stream."""
import ctypes
from typing import Optional

from ._errors import BAD_NUMBER, KINDS, REFUSED, TEXTS, BadNumber, Cause, Refused, Unsent, failed, within
from ._held import TOP, Held
from ._library import bytes_of, calls
from ._structures import MOST_DATAGRAM, CCause, SenderRefusal

message_in, disclose_in, begin_in = calls["sender_message"], calls["sender_disclose"], calls["sender_begin_at"]
# The cause that is no exception.
NOTHING_DUE = 6


class Sender(Held):
    """A sender of the stream of a setup.

    `setup` is the text of the setup and `seeds` that of its seeds, which nobody else may see: as many as it has chains, each of which
    gives the key of the setup. Opening it takes as many evaluations of HMAC as all chains have keys together, and all memory.

    It raises Refused for a text that is refused, whose `text` is "setup" or "seeds", and MemoryError. It is a context manager, which
    closes it. Readings are in microseconds of the sender's clock.
    """

    _kind = "sender"

    def __init__(self, setup: bytes, seeds: bytes):
        super().__init__()
        self._room, self._length, self._cause = ctypes.create_string_buffer(MOST_DATAGRAM), ctypes.c_size_t(), CCause()
        self._places = tuple(map(ctypes.addressof, (self._room, self._length, self._cause)))
        setup, seeds, refusal = bytes_of(setup), bytes_of(seeds), SenderRefusal()
        status = calls["sender_open"](self._at, setup, len(setup), seeds, len(seeds), refusal)
        if status == REFUSED:
            raise Refused(TEXTS[refusal.text], refusal.line, KINDS[refusal.kind])
        if status:
            raise failed(status)

    def message(self, payload: bytes, reading: int) -> bytes:
        """The frame of a message of at most 1200 bytes at this reading. Unsent says why there is none, and then the sender is as it
        was. Closed and BadNumber are raised too."""
        if type(payload) is not bytes:
            payload = bytes_of(payload)
        if not 0 <= reading < TOP:
            within("reading", reading, 0, TOP - 1)
        room, length, cause = self._places
        with self._lock:
            status = message_in(self._at, reading, payload, len(payload), room, length, cause)
            if not status:
                return ctypes.string_at(room, self._length.value)
            kind, number = self._cause.kind, self._cause.number
        raise Unsent(Cause(kind), number) if status == REFUSED else failed(status)

    def disclose(self, reading: int) -> Optional[bytes]:
        """The frame that tells the keys which are due at this reading, or None where none is due yet. Exceptions are as of a
        message."""
        if not 0 <= reading < TOP:
            within("reading", reading, 0, TOP - 1)
        room, length, cause = self._places
        with self._lock:
            status = disclose_in(self._at, reading, room, length, cause)
            if not status:
                return ctypes.string_at(room, self._length.value)
            kind, number = self._cause.kind, self._cause.number
        if status == REFUSED and kind == NOTHING_DUE:
            return None
        raise Unsent(Cause(kind), number) if status == REFUSED else failed(status)

    def begin_at(self, interval: int) -> None:
        """Goes on to an interval: from here on the sender answers as if its last accepted call were of that interval. A sender that
        was opened again, of the same seeds, never sends for an interval in which the one before it did: it goes on to a later one.
        BadNumber: the interval is before that of the last accepted call."""
        within("interval", interval, 0, TOP - 1)
        with self._lock:
            status = begin_in(self._at, interval)
            if status == BAD_NUMBER:
                # (reading 0 is in interval 0, so this is refused, and its number is that of the last accepted call)
                disclose_in(self._at, 0, *self._places)
                raise BadNumber("interval", interval, self._cause.number, TOP - 1)
        if status:
            raise failed(status)

    def make_next(self) -> None:
        """Makes the keys of the next interval ahead of time, so that a first message there waits for no key."""
        self._call("make_next")

    def interval_at(self, reading: int) -> int:
        """The interval of a reading, 0 before the start."""
        interval = ctypes.c_uint64()
        self._call("interval_at", within("reading", reading, 0, TOP - 1), interval)
        return interval.value
