"""Gives release records by interval and number: docs/operating/RECEIVING.md, The order of messages. It needs Python 3.8 and
tesla_release.py beside it.

    order = tesla_order.Order(0.5)
    for record in tesla_release.records(file):
        for event in order.put(record, time.monotonic()):
            ...

A record is given at once where it has the number behind the one that was given last, in the same interval. Any other waits,
since an earlier one may still come: until that came, until it has waited for so many seconds, or until there is no room. Then
the numbers that lack before it are given up. Of a follower's records those of an epoch come before those of the next. Nothing
here reads a clock or a file.
"""
import heapq
from collections import OrderedDict, namedtuple

# Numbers of an interval, from the first to the last, for which no record is waited any more.
Gap = namedtuple("Gap", "interval first last epoch")
# A record that came behind its place, or a second time, and isn't given.
Late = namedtuple("Late", "record")


class Order:
    """What waits for an earlier record, and how many records were given, were given up, and came late."""

    def __init__(self, wait, most=4096):
        """A record waits at most so many seconds, and fewer than `most` wait."""
        self.wait, self.most = wait, most
        self.given = self.lost = self.late = 0
        # No interval is 0, so nothing has the number behind this one.
        self._last = (0, 0, 0)
        self._held, self._came, self._turn = [], OrderedDict(), 0

    def put(self, record, now):
        """Takes a record that came at this time, in seconds of any clock that can't be set. Answers what follows: records,
        gaps before them, and what is late."""
        name = (record.epoch, record.interval, record.number)
        if name <= self._last:
            self.late += 1
            return [Late(record)]
        heapq.heappush(self._held, (name, self._turn, record))
        self._came[self._turn] = now
        self._turn += 1
        return self._while(lambda: self._follows() or len(self._held) >= self.most)

    def due(self):
        """When the first of those that wait has waited for long enough. None where none waits."""
        return next(iter(self._came.values())) + self.wait if self._came else None

    def past(self, now):
        """What is to be given at this time since it has waited for long enough, with all before it."""
        return self._while(lambda: self._follows() or self.due() <= now)

    def end(self):
        """What is to be given since nothing comes any more: all that waits."""
        return self._while(lambda: True)

    def _follows(self):
        (epoch, interval, number), _, _ = self._held[0]
        return (epoch, interval, number - 1) == self._last

    def _while(self, may):
        events = []
        while self._held and may():
            events += self._give()
        return events

    def _give(self):
        (epoch, interval, number), turn, record = heapq.heappop(self._held)
        del self._came[turn]
        if (epoch, interval, number) == self._last:
            self.late += 1
            return [Late(record)]
        first = self._last[2] + 1 if (epoch, interval) == self._last[:2] else 0
        self._last = (epoch, interval, number)
        self.given += 1
        self.lost += number - first
        return [Gap(interval, first, number - 1, epoch), record] if first < number else [record]
