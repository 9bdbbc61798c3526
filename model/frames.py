"""Frames: their one spelling, and the frame that bytes are (FORMATS.md, "Frame")."""
import collections
import functools
import struct

from .setups import LONGEST_TAG, MOST_CHAINS, SHORTEST_TAG

# What a data frame carries for one chain: a tag, and a key or None.
TagRow = collections.namedtuple("TagRow", "tag key")
# What a disclosure frame carries for one chain.
KeyRow = collections.namedtuple("KeyRow", "chain index key")
DataFrame = collections.namedtuple("DataFrame", "version stream interval number payload tag_length rows")
KeysFrame = collections.namedtuple("KeysFrame", "version stream rows")


def frame_text(frame):
    """The one spelling of a frame."""
    if isinstance(frame, KeysFrame):
        head = b"TSLA" + bytes([frame.version, 2]) + struct.pack(">QB", frame.stream, len(frame.rows))
        return head + b"".join(struct.pack(">BI", row.chain, row.index) + row.key for row in frame.rows)
    name = struct.pack(">QIH", frame.stream, frame.interval, frame.number)
    payload = struct.pack(">H", len(frame.payload)) + frame.payload
    counts = bytes([len(frame.rows)] if frame.version == 1 else [len(frame.rows), frame.tag_length])
    rows = b"".join(row.tag + (b"\0" if row.key is None else b"\1" + row.key) for row in frame.rows)
    return b"TSLA" + bytes([frame.version, 1]) + name + payload + counts + rows


def without_keys(frame):
    """A data frame without its keys."""
    return frame._replace(rows=tuple(row._replace(key=None) for row in frame.rows))


class NoFrame(Exception):
    """The bytes are no frame."""


class Fields:
    """The fields of a datagram, from left to right."""

    def __init__(self, text):
        self.rest = text

    def bytes_front(self, count):
        """So many bytes."""
        if len(self.rest) < count:
            raise NoFrame
        front, self.rest = self.rest[:count], self.rest[count:]
        return front

    def number_front(self, count):
        """The number whose bytes stand there, the highest first."""
        return int.from_bytes(self.bytes_front(count), "big")

    def number_within(self, count, least, most):
        """The same, within limits."""
        number = self.number_front(count)
        if not least <= number <= most:
            raise NoFrame
        return number

    def optional_key_at(self):
        """A flag, and a key behind a 1."""
        return self.bytes_front(32) if self.number_within(1, 0, 1) == 1 else None

    def end(self):
        """Nothing stands behind the fields."""
        if self.rest:
            raise NoFrame


def data_of(version, fields):
    """What stands behind the kind of a data frame."""
    stream, interval, number = (fields.number_front(count) for count in (8, 4, 2))
    payload = fields.bytes_front(fields.number_within(2, 0, 1_200))
    count = fields.number_within(1, 1, MOST_CHAINS[version])
    size = fields.number_within(1, SHORTEST_TAG[2], LONGEST_TAG[2]) if version == 2 else LONGEST_TAG[1]
    rows = tuple(TagRow(fields.bytes_front(size), fields.optional_key_at()) for _ in range(count))
    fields.end()
    return DataFrame(version, stream, interval, number, payload, size, rows)


def keys_of(version, fields):
    """What stands behind the kind of a disclosure frame."""
    stream = fields.number_front(8)
    count = fields.number_within(1, 1, MOST_CHAINS[version])
    rows = tuple(KeyRow(fields.number_front(1), fields.number_front(4), fields.bytes_front(32)) for _ in range(count))
    fields.end()
    if any(row.chain >= after.chain for row, after in zip(rows, rows[1:])):
        raise NoFrame
    return KeysFrame(version, stream, rows)


@functools.lru_cache(maxsize=4_096)
def frame_of(text):
    """The frame that the bytes are, all of them, or None."""
    fields = Fields(text)
    try:
        if fields.bytes_front(4) != b"TSLA":
            return None
        version = fields.number_within(1, 1, 2)
        kind = fields.number_within(1, 1, 2)
        return data_of(version, fields) if kind == 1 else keys_of(version, fields)
    except NoFrame:
        return None
