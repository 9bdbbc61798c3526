"""A follower of a feed whose streams hand over one to the next."""
import ctypes
import enum
from typing import Iterator, NamedTuple, Optional

from ._errors import EMPTY, OVER, failed
from ._held import TOP
from ._library import bytes_of, calls
from ._receiving import VERDICTS, Kind, Receiving, Report, check_numbers, report_of
from ._structures import FOLLOW_NUMBERS, CFollowReport, CFollowVerdict, CRecord

arrive_in, take_of = calls["follower_arrive"], calls["follower_take"]


class Acceptance(enum.IntEnum):
    """What becomes of a message before its key is disclosed: no authentic message before promised it, or it is none; it is
    accepted, and waits to be taken; or it was promised, and there was no place for it."""
    UNPROMISED = 0
    ACCEPTED = 1
    UNQUEUED = 2


_ACCEPTANCES = tuple(Acceptance)


class FollowVerdict(NamedTuple):
    """The verdict on a datagram: `kind`, `chains` and `number` as of a Verdict, the number of the epoch to which it went, and what
    becomes of its message before its key is disclosed."""
    kind: Kind
    chains: int
    number: int
    epoch: int
    acceptance: Acceptance


class Record(NamedTuple):
    """A message: its payload, its interval and its number in it, how many records were given before it, the chain that proved it,
    and the number of its epoch. One with `is_early` was accepted on arrival, has 255 as its chain, and comes once more when it is
    released."""
    payload: bytes
    interval: int
    number: int
    position: int
    chain: int
    epoch: int
    is_early: bool


class FollowReport(NamedTuple):
    """The counts of all epochs together, how many epochs were opened, and are open; how many records were early, how many promised
    messages found no place, how many packets were held and not given in epochs when these were closed, and how many records were
    given."""
    counts: Report
    epochs: int
    open_epochs: int
    early: int
    unqueued: int
    dropped: int
    records: int


class Follower(Receiving):
    """A follower of a feed that begins with the stream of a setup: a message that hands over opens the epoch of the next stream,
    of which three are open at most, and a message that an authentic one promised is given as soon as it comes.

    The parameters are those of a Receiver, but that `capacity` is 1 to 4096: the packets of each epoch, and the messages that
    wait. A setup in which two chains have equal commitments is refused. All memory is taken here. It is a context manager, and
    iterating over it gives the records that wait now.
    """

    _kind, _most = "follower", 4096

    def __init__(self, setup: bytes, lag: int, capacity: int = 4096, quota: Optional[int] = None, ingests: int = 1):
        super().__init__(setup, lag, capacity, quota, ingests, CFollowVerdict(), CRecord())

    def arrive(self, datagram: bytes, reading: int, ingest: int = 0) -> FollowVerdict:
        """Judges a datagram that came to an ingest at this reading of the clock. Closed, Spent and BadNumber are raised."""
        if type(datagram) is not bytes:
            datagram = bytes_of(datagram)
        if not 0 <= reading < TOP or not 0 <= ingest < 256:
            check_numbers(reading, ingest)
        it = self._verdict
        with self._lock:
            status = arrive_in(self._at, ingest, reading, datagram, len(datagram), self._places[0])
            if not status:
                return FollowVerdict(VERDICTS[it.kind], it.chains, it.number, it.epoch, _ACCEPTANCES[it.acceptance])
        raise failed(status)

    def take(self) -> Optional[Record]:
        """Gives the next record, or None where none waits; `is_over` tells whether one can still come."""
        _, payload, head = self._places
        it = self._head
        with self._lock:
            status = take_of(self._at, 0, payload, head)
            if not status:
                text = ctypes.string_at(payload, it.length)
                return Record(text, it.interval, it.number, it.position, it.chain, it.epoch, it.kind == 1)
            if status == OVER:
                self._is_over = True
        if status == EMPTY or status == OVER:
            return None
        raise failed(status)

    def __iter__(self) -> Iterator[Record]:
        """The records that wait now, and those that come to it meanwhile."""
        while (record := self.take()) is not None:
            yield record

    def report(self) -> FollowReport:
        """The counts of all calls so far."""
        report = CFollowReport()
        self._call("report", report)
        return FollowReport(report_of(report.counts), *(getattr(report, it) for it in FOLLOW_NUMBERS))
