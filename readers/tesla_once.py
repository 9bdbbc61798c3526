"""Tells the first record of each name: docs/operating/LOOKING.md, What a follower wrote. It needs Python 3.8 and nothing else.

    once = tesla_once.Once()
    for record in filter(once.is_first, tesla_release.records(file, tesla_release.FOLLOW)):
        ...

A message that a follower accepted on arrival and released later has two records of one name, which is its epoch, its interval
and its number. As many names are known as there is room for: those that came last. A record whose name is known is a further
one. It doesn't make its name newer: the names are forgotten in the order in which their first records came.
"""
from collections import deque

# How many names are known where nothing else is said. That many take some 25 MB.
MOST_NAMES = 200_000


class Once:
    """Which names are known."""

    def __init__(self, most=MOST_NAMES):
        """Room for `most` names, at least 1."""
        self.most = most
        self._known, self._turns = set(), deque()

    def is_first(self, record):
        """Whether no record of this name is known. From then on it is known, and the oldest name is forgotten where there is no
        room."""
        return self.is_first_name(record.epoch, record.interval, record.number)

    def is_first_name(self, epoch, interval, number):
        """The same of a record that has this name."""
        # (one number takes less memory than three)
        name = epoch << 48 | interval << 16 | number
        if name in self._known:
            return False
        if len(self._turns) >= self.most:
            self._known.remove(self._turns.popleft())
        self._known.add(name)
        self._turns.append(name)
        return True
