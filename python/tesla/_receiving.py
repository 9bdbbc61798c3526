"""What a receiver and a follower have in common."""
import ctypes
import enum
from typing import NamedTuple, Optional

from ._errors import KINDS, REFUSED, Refused, failed, within
from ._held import TOP, Held
from ._library import bytes_of, calls
from ._structures import MOST_PAYLOAD, NUMBERS, Refusal


class Kind(enum.IntEnum):
    """What is made of a datagram; DEFINITIONS.md says when."""
    MALFORMED = 0
    FOREIGN = 1
    MISFIT = 2
    FUTURE = 3
    BADKEY = 4
    LATE = 5
    REPEAT = 6
    FULL = 7
    KEPT = 8
    KEYS = 9


VERDICTS = tuple(Kind)


class Report(NamedTuple):
    """How many datagrams arrived, how many had each verdict, and how many messages were given."""
    arrivals: int
    malformed: int
    foreign: int
    misfit: int
    future: int
    badkey: int
    late: int
    repeat: int
    full: int
    kept: int
    keys: int
    given: int


def report_of(told) -> Report:
    """The counts that the library told."""
    return Report(*(getattr(told, it) for it in NUMBERS))


class Receiving(Held):
    """What judges datagrams and gives messages."""

    # The greatest capacity.
    _most = 0

    def __init__(self, setup, lag, capacity, quota, ingests, verdict, head):
        super().__init__()
        self._is_over, self._payload = False, ctypes.create_string_buffer(MOST_PAYLOAD)
        self._verdict, self._head = verdict, head
        self._places = tuple(map(ctypes.addressof, (verdict, self._payload, head)))
        within("lag", lag, -(1 << 63), (1 << 63) - 1)
        within("capacity", capacity, 1, self._most)
        quota = within("quota", capacity if quota is None else quota, 1, capacity)
        within("ingests", ingests, 1, 255)
        text, refusal = bytes_of(setup), Refusal()
        status = calls[f"{self._kind}_open"](self._at, text, len(text), lag, capacity, quota, ingests, refusal)
        if status == REFUSED:
            raise Refused("setup", refusal.line, KINDS[refusal.kind])
        if status:
            raise failed(status)

    def end(self, ingest: int = 0) -> None:
        """Says that nothing comes to an ingest any more."""
        self._call("end", within("ingest", ingest, 0, 255))

    @property
    def is_over(self) -> bool:
        """Whether a take found that every ingest has ended and nothing waits."""
        return self._is_over

    @property
    def waiting(self) -> int:
        """How much waits to be taken."""
        count = ctypes.c_uint64()
        self._call("waiting", count)
        return count.value


def check_numbers(reading: int, ingest: int) -> None:
    """Raises where a number of an arrival is outside its limits."""
    within("reading", reading, 0, TOP - 1)
    within("ingest", ingest, 0, 255)
