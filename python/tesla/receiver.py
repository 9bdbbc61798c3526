"""A receiver of one stream."""
import ctypes
from typing import Iterator, NamedTuple, Optional

from ._errors import EMPTY, OVER, failed
from ._held import TOP
from ._library import bytes_of, calls
from ._receiving import VERDICTS, Kind, Receiving, Report, check_numbers, report_of
from ._structures import CReport, CVerdict, Head

arrive_in, take_of = calls["receiver_arrive"], calls["receiver_take"]


class Verdict(NamedTuple):
    """The verdict on a datagram. `chains` is the chain of a BADKEY, the set of safe chains of a KEPT, with bit c for chain c, and
    of a FUTURE 1 where there is a bound; `number` is the stream of a FOREIGN, and the bound of a FUTURE."""
    kind: Kind
    chains: int
    number: int


class Message(NamedTuple):
    """An authentic message: its payload, its interval and its number in it, how many were given before it, and the chain that
    proved it."""
    payload: bytes
    interval: int
    number: int
    position: int
    chain: int


class Receiver(Receiving):
    """A receiver of the stream of a setup.

    `setup` is the text of the setup; it has to come from its sender by a way that is trusted. `lag` is by how many microseconds
    the sender's clock is ahead at most. `capacity` (1 to 65536) is how many packets have room, `quota` (1 to the capacity, which it
    is if none is told) how many of one interval, and `ingests` (1 to 255) how many ways datagrams come. All memory is taken here.

    It raises Refused for a setup that is refused, BadNumber, and MemoryError. It is a context manager, which closes it, and
    iterating over it gives the messages that are released now.
    """

    _kind, _most = "receiver", 65_536

    def __init__(self, setup: bytes, lag: int, capacity: int = 4096, quota: Optional[int] = None, ingests: int = 1):
        super().__init__(setup, lag, capacity, quota, ingests, CVerdict(), Head())

    def arrive(self, datagram: bytes, reading: int, ingest: int = 0) -> Verdict:
        """Judges a datagram that came to an ingest at this reading of the clock. Closed, Spent and BadNumber are raised."""
        if type(datagram) is not bytes:
            datagram = bytes_of(datagram)
        if not 0 <= reading < TOP or not 0 <= ingest < 256:
            check_numbers(reading, ingest)
        it = self._verdict
        with self._lock:
            status = arrive_in(self._at, ingest, reading, datagram, len(datagram), self._places[0])
            if not status:
                return Verdict(VERDICTS[it.kind], it.chains, it.number)
        raise failed(status)

    def take(self) -> Optional[Message]:
        """Gives the next authentic message, or None where none waits; `is_over` tells whether one can still come."""
        _, payload, head = self._places
        it = self._head
        with self._lock:
            status = take_of(self._at, 0, payload, head)
            if not status:
                text = ctypes.string_at(payload, it.length)
                return Message(text, it.interval, it.number, it.position, it.chain)
            if status == OVER:
                self._is_over = True
        if status == EMPTY or status == OVER:
            return None
        raise failed(status)

    def __iter__(self) -> Iterator[Message]:
        """The messages that wait now, and those that are released meanwhile."""
        while (message := self.take()) is not None:
            yield message

    def report(self) -> Report:
        """The counts of all calls so far."""
        report = CReport()
        self._call("report", report)
        return report_of(report)
