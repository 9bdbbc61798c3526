"""Draws of captures of several streams, of which one hands over to the next."""
from .captures import Way
from .clock import Times
from .epochs import MARK
from .files import Arrives, Takes
from .setups import setup_text
from .streams import setup_altered, stream_drawn

# What happens, with how often. A method of `Feed` makes the records of each.
ACTS = {"next": 5, "other": 12, "bad": 2, "used": 2, "old": 2, "untold": 1, "plain": 4, "takes": 4}
QUICK = {"next": 12, "plain": 2, "takes": 1, "other": 1}


class Feed:
    """A feed that goes on in further streams."""

    def __init__(self, draw, stream, lag):
        self.draw, self.lag = draw, lag
        self.ways = [Way(draw, stream, lag)]

    def stream(self, number=None):
        """A stream that may come next; its intervals are mostly those of the first one."""
        times = self.ways[0].setup.times if self.draw.chance(0.8) else Times(1_000_000, 100_000, 8)
        return stream_drawn(self.draw, times=times, number=number)

    def numbers(self):
        """The numbers of the streams so far."""
        return [way.setup.stream for way in self.ways]

    def told(self, way, payload):
        """A message with its key, and mostly takes."""
        return way.told(payload) + [Takes()] * self.draw.choice((0, 1, 1, 1, 2))

    def next(self):
        """The newest stream hands over to one of its own."""
        # (where the last handover failed the stream before hands over again)
        way = self.ways[-2] if len(self.ways) > 1 and self.draw.chance(0.2) else self.ways[-1]
        stream = self.stream()
        records = self.told(way, MARK + setup_text(stream.setup))
        self.ways.append(Way(self.draw, stream, self.lag))
        return records

    def bad(self):
        """The newest stream hands over to a text that is mostly no setup."""
        text = setup_altered(self.draw, self.stream().setup)
        return self.told(self.ways[-1], (MARK + text)[:1_200])

    def used(self):
        """The newest stream hands over to one that is open."""
        stream = self.stream(self.draw.choice(self.numbers()))
        return self.told(self.ways[-1], MARK + setup_text(stream.setup))

    def old(self):
        """Some stream hands over to another one."""
        return self.told(self.draw.choice(self.ways), MARK + setup_text(self.stream().setup))

    def untold(self):
        """A handover whose key doesn't come."""
        return self.ways[-1].told(MARK + setup_text(self.stream().setup))[:1] + [Takes()]

    def plain(self):
        """A message that is no handover, or that nearly is one."""
        payload = self.draw.choice((b"TNXT", b"TNXT\2", b"tnxt\1", MARK, b"x", b""))
        return self.told(self.draw.choice(self.ways), payload)

    def other(self):
        """What comes of one of the streams."""
        way = self.draw.choice(self.ways[-2:] if self.draw.chance(0.7) else self.ways)
        way.goes_on()
        return [way.arrival()]

    def takes(self):
        """Takes alone."""
        return [Takes()] * self.draw.randrange(1, 4)


class QuickFeed(Feed):
    """A feed of which each handover opens the next epoch."""

    def stream(self, number=None):
        """A stream of short delays."""
        stream = stream_drawn(self.draw, times=self.ways[0].setup.times)
        return stream if stream.setup.rows[0].delay < 9 and stream.setup.stream not in self.numbers() else self.stream()

    def told(self, way, payload):
        """A message with its key, each in the middle of an interval, and a take."""
        begin, length = way.setup.times.start - self.lag, way.setup.times.length
        came = [Arrives(begin + bound * length + length // 2, text) for bound, text in self.bounded(way, payload)]
        return came + [Takes()] * 2

    def bounded(self, way, payload):
        """A message and its key with their bounds."""
        interval, delay = max(way.now, way.setup.rows[0].index + 1), way.setup.rows[0].delay
        return zip((interval, interval + delay), (record.bytes for record in way.told(payload)))

    def next(self):
        """The newest stream hands over to one of its own."""
        stream = self.stream()
        records = self.told(self.ways[-1], MARK + setup_text(stream.setup))
        self.ways.append(Way(self.draw, stream, self.lag))
        return records


def rolled(draw, stream, lag):
    """The records of a capture of several streams."""
    feed = Feed(draw, stream, lag)
    return [record for _ in range(draw.choice((3, 8, 14))) for record in getattr(feed, draw.pick(ACTS))()]


def rolled_quickly(draw, stream, lag):
    """The same, where as many streams follow as there may be epochs, or more."""
    feed = QuickFeed(draw, stream, lag)
    return [record for _ in range(26) for record in getattr(feed, draw.pick(QUICK))()]
