"""Draws of captures: what an honest sender's frames come to on the way, and what forgers send beside them."""
import hashlib

from .files import Arrives, Takes
from .frames import DataFrame, KeyRow, KeysFrame, TagRow, frame_text, without_keys
from .histories import name_of
from .promises import Promise, promising_text, woven
from .senders import due_rows, key_of, message_frame
from .streams import first_interval, reading_drawn

# What comes, with how often. A method of `Way` makes each.
KINDS = {"honest": 30, "keyless": 6, "disclosure": 12, "again": 9, "keyed": 4, "promised": 8, "renamed": 3, "old_keys": 2,
         "part": 4, "bad_tag": 6, "bad_key": 5, "bad_disclosure": 4, "other_payload": 4, "other_stream": 2, "other_version": 2,
         "misfit_data": 4, "misfit_keys": 3, "too_early": 3, "malformed": 5, "noise": 2}


def replaced(items, at, item):
    """The items with another one at a place."""
    return (*items[:at], item, *items[at + 1:])


class Way:
    """What comes of one stream to a receiver, datagram after datagram."""

    def __init__(self, draw, stream, lag):
        self.draw, self.stream, self.lag = draw, stream, lag
        self.setup, self.first = stream.setup, first_interval(stream)
        self.now = self.first
        self.came, self.promises = [], []
        self.payloads = self.planned() if draw.chance(0.4) else {}

    # ---- messages

    def planned(self):
        """Payloads of the next intervals, of which each promises a later one."""
        names = [(self.first + at, number) for at in range(12) for number in range(2)]
        gap = self.draw.randrange(1, 6 + 2 * min(4, self.setup.rows[0].delay))
        return dict(zip(names, woven(gap, names, [self.draw.bytes(9) for _ in names])))

    def payload(self, interval, number):
        """The payload of the message of that name."""
        drawn = self.draw.randbytes(1_200) if self.draw.chance(0.03) else self.draw.bytes(40)
        return self.payloads.setdefault((interval, number), drawn) if self.draw.chance(0.8) else drawn

    def promising(self):
        """A payload that promises a message of about now, which may have come, or that nearly does."""
        came = [name_of(frame) for frame in self.came if isinstance(frame, DataFrame)]
        name = self.draw.choice(came[-6:] + [(self.now + at, 0) for at in (0, 0, 1, 2)])
        self.promises.append(name)
        digest = hashlib.sha256(self.payloads.setdefault(name, b"promised")).digest()
        text = promising_text(Promise(name, digest), self.draw.choice((b"", b"x")))
        return text if self.draw.chance(0.9) else self.draw.choice((text[:38], b"\0" + text[1:], text[:-1] + b"y"))

    def promised(self):
        """A message that was promised."""
        interval, number = self.draw.choice(self.promises[-3:]) if self.promises else (self.now, 0)
        frame = message_frame(self.stream, interval, number, self.payload(interval, number))
        return frame if self.draw.chance(0.5) else without_keys(frame)

    def honest(self):
        """A message of now."""
        number = self.draw.choice((0, 0, 1, 2, 3, 65_535))
        return message_frame(self.stream, self.now, number, self.payload(self.now, number))

    def keyless(self):
        """A message without its keys."""
        return without_keys(self.honest())

    def part(self):
        """A message, or keys, of which some are missing."""
        frame = self.honest() if self.draw.chance(0.5) else self.disclosure()
        if isinstance(frame, DataFrame):
            return frame._replace(rows=tuple(row._replace(key=None) if self.draw.chance(0.5) else row for row in frame.rows))
        return frame._replace(rows=frame.rows[self.draw.randrange(len(frame.rows)):][:1]) if frame.rows else frame

    def again(self):
        """What came before, once more."""
        return self.draw.choice(self.came) if self.came else self.honest()

    def keyed(self):
        """A message that came before, with its tags as they were and with all its keys."""
        frame = self.again()
        if not isinstance(frame, DataFrame) or not self.first <= frame.interval <= self.setup.times.last:
            return frame
        whole = message_frame(self.stream, *name_of(frame), frame.payload)
        return frame._replace(rows=tuple(row._replace(key=other.key) for row, other in zip(frame.rows, whole.rows)))

    def renamed(self):
        """What came before under another name, or in a later interval."""
        frame = self.again()
        if not isinstance(frame, DataFrame):
            return frame
        interval = min(max(1, frame.interval + self.draw.choice((-1, 1))), 2 ** 32 - 1)
        return self.draw.choice((frame._replace(number=frame.number ^ 1), frame._replace(interval=interval)))

    # ---- forged messages

    def altered(self, text):
        """The bytes with one bit altered."""
        at = self.draw.randrange(len(text))
        return replaced_byte(text, at, text[at] ^ 1 << self.draw.randrange(8))

    def bad_tag(self):
        """A message of which one tag or more is wrong."""
        frame = self.draw.choice((self.honest, self.again))()
        if not isinstance(frame, DataFrame) or not frame.rows:
            return frame
        wrong = [self.draw.randrange(len(frame.rows))] if self.draw.chance(0.6) else range(len(frame.rows))
        rows = [row._replace(tag=self.altered(row.tag)) if at in wrong else row for at, row in enumerate(frame.rows)]
        return frame._replace(rows=tuple(rows))

    def bad_key(self):
        """A message with a wrong key, or with keys that aren't told yet."""
        frame = self.honest()
        at = self.draw.randrange(len(frame.rows))
        return frame._replace(rows=replaced(frame.rows, at, frame.rows[at]._replace(key=self.draw.randbytes(32))))

    def other_payload(self):
        """A message with the tags of another one."""
        frame = self.draw.choice((self.honest, self.again))()
        return frame._replace(payload=self.draw.bytes(40)) if isinstance(frame, DataFrame) else frame

    def other_stream(self):
        """A frame of another stream."""
        frame = self.draw.choice((self.honest, self.disclosure))()
        return frame._replace(stream=frame.stream ^ self.draw.choice((1, 1 << 63, 0xff)))

    def other_version(self):
        """A frame of the other version."""
        frame = self.draw.choice((self.honest, self.disclosure))()
        if isinstance(frame, KeysFrame):
            return frame._replace(version=3 - frame.version, rows=frame.rows[:4])
        rows = tuple(TagRow(row.tag.ljust(16, b"\0")[:16], row.key) for row in frame.rows[:4])
        return frame._replace(version=3 - frame.version, tag_length=16, rows=rows)

    def misfit_data(self):
        """A message with a field that doesn't fit the setup, or by chance does."""
        frame = self.draw.choice((self.honest, self.keyless))()
        size, last = frame.tag_length + self.draw.choice((-1, 1)), self.setup.times.last
        keyed = tuple(row._replace(key=self.draw.randbytes(32)) for row in frame.rows)
        sized = tuple(row._replace(tag=row.tag.ljust(size, b"\0")[:size]) for row in frame.rows)
        return self.draw.choice((
            frame._replace(interval=0), frame._replace(interval=self.draw.choice((last, last + 1, 2 ** 32 - 1))),
            frame._replace(rows=frame.rows[1:]), frame._replace(rows=frame.rows + frame.rows[:1]), frame._replace(rows=keyed),
            frame._replace(rows=sized, tag_length=size)))

    # ---- keys

    def keys(self, rows):
        """A frame of these keys, each of a chain and an index."""
        found = [KeyRow(chain, index, key_of(self.stream, chain, index)) for chain, index in rows]
        return KeysFrame(self.setup.version, self.setup.stream, tuple(found))

    def disclosure(self):
        """The keys that are due now."""
        rows = due_rows(self.stream, self.now)
        return self.keys([(row.chain, row.index) for row in rows] or [(0, self.first)])

    def old_keys(self):
        """Keys before those that are due, also before the commitments; some are wrong."""
        frame = self.disclosure()
        rows = tuple(row._replace(index=max(0, row.index - self.draw.randrange(1, 4))) for row in frame.rows)
        if self.draw.chance(0.5):
            return frame._replace(rows=rows)
        return self.keys([(row.chain, row.index) for row in rows])

    def bad_disclosure(self):
        """Keys of which one is wrong, or stands for another index or chain."""
        frame = self.disclosure()
        at = self.draw.randrange(len(frame.rows))
        row = frame.rows[at]
        wrong = self.draw.choice((row._replace(key=self.altered(row.key)), row._replace(key=self.draw.randbytes(32)),
                                  row._replace(index=row.index + 1), row._replace(key=frame.rows[-1].key)))
        return frame._replace(rows=replaced(frame.rows, at, wrong))

    def misfit_keys(self):
        """Keys of a chain that isn't there, or beyond the last interval."""
        frame = self.disclosure()
        row = frame.rows[-1]
        chain = self.draw.choice((len(self.setup.rows), len(self.setup.rows) - 1, 255))
        index = self.draw.choice((row.index, self.setup.times.last, self.setup.times.last + 1, 2 ** 32 - 1))
        return frame._replace(rows=(*frame.rows[:-1], KeyRow(chain, index, row.key)))

    def too_early(self):
        """Keys that are due later."""
        later = min(self.now + self.draw.randrange(1, 4), self.setup.times.last)
        return self.keys([(chain, later) for chain in range(len(self.setup.rows)) if self.draw.chance(0.6)] or [(0, later)])

    # ---- what is no frame

    def malformed(self):
        """A frame that was cut, lengthened or altered."""
        text = frame_text(self.draw.choice((self.honest, self.disclosure, self.misfit_data))())
        at = self.draw.randrange(len(text))
        fallen = (KeyRow(1, 1, bytes(32)), KeyRow(self.draw.choice((0, 1, 2)), 1, bytes(32)))
        many = tuple(KeyRow(chain, 1, bytes(32)) for chain in range(self.draw.randrange(3, 10)))
        others = [self.keys([])._replace(rows=fallen), self.keys([])._replace(rows=many), self.honest()._replace(rows=()),
                  self.honest()._replace(payload=bytes(self.draw.choice((1_200, 1_201))))]
        return self.draw.choice((
            text[:at], text + b"\0", text.ljust(2_048, b"\0"), replaced_byte(text, at, self.draw.randrange(256)),
            *(replaced_byte(text, place, self.draw.randrange(4)) for place in (4, 5, at)), *map(frame_text, others)))

    def noise(self):
        """Bytes of other traffic."""
        return self.draw.choice((b"", b"TSLA", self.draw.randbytes(self.draw.randrange(200)), self.draw.randbytes(2_048)))

    # ---- arrivals

    def bounds(self, frame):
        """Bounds with which a frame is met, each with how often: in its time, and about those that change its verdict."""
        if not isinstance(frame, (DataFrame, KeysFrame)):
            return {self.now: 1}
        delay = self.draw.choice(self.setup.rows).delay
        told = [row.index + delay for row in frame.rows] if isinstance(frame, KeysFrame) else [frame.interval]
        at = max(told, default=self.now)
        return {at: 10, self.now: 4, at + 1: 2, at + delay - 1: 3, at + delay: 2, at - 1: 1, -1: 0.3, 0: 0.2, 2 ** 33: 0.2}

    def arrival(self, kind=None):
        """An arrival of some kind."""
        frame = getattr(self, kind or self.draw.pick(KINDS))()
        if isinstance(frame, (DataFrame, KeysFrame)) and kind != "other_stream":
            self.came.append(frame)
        text = frame if isinstance(frame, bytes) else frame_text(frame)
        bounds = self.bounds(frame)
        return Arrives(reading_drawn(self.draw, self.setup.times, self.lag, self.draw.pick(bounds)), text[:2_048])

    def goes_on(self):
        """The time goes on, mostly slowly, and after the last interval mostly begins again."""
        self.now += self.draw.choice((0, 0, 0, 1, 1, 2))
        if self.now > self.setup.times.last and self.draw.chance(0.8):
            self.now = self.draw.randrange(self.first, self.setup.times.last + 1)

    def comes(self, frame, bound):
        """The arrival of a frame with that bound."""
        self.came.append(frame)
        return Arrives(reading_drawn(self.draw, self.setup.times, self.lag, bound), frame_text(frame))

    def told(self, payload):
        """A message whose key isn't told yet, and then its key."""
        interval = max(self.now, self.setup.rows[0].index + 1)
        self.now = interval + self.draw.choice((0, 1))
        frame = message_frame(self.stream, interval, self.draw.randrange(3), payload)
        keys = self.keys([(0, min(interval, self.setup.times.last))])
        return [self.comes(without_keys(frame), interval), self.comes(keys, interval + self.setup.rows[0].delay)]


def replaced_byte(text, at, byte):
    """The bytes with another one at a place."""
    return text[:at] + bytes([byte]) + text[at + 1:]


def records_drawn(draw, way):
    """The records of a capture: arrivals, lost ones not among them, and takes here and there."""
    records, often = [], draw.choice((0.2, 0.6, 1.5))
    promising = draw.chance(0.3)
    for _ in range(draw.choice((0, 3, 10, 18, 26))):
        if promising and draw.chance(0.3):
            records += way.told(way.promising()) + [Takes()] * draw.choice((0, 1, 2, 2))
        records.append(way.arrival("promised" if promising and draw.chance(0.2) else None))
        records += [Takes()] * (draw.randrange(3) if draw.chance(often / 2) else 0)
        way.goes_on()
    return records
