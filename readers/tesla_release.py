"""Reads the release records that `tesla` writes: docs/FORMATS.md, Release record. It needs Python 3.8 and nothing else.

    with open(name, "rb") as file:
        for record in tesla_release.records(file):
            ...

A form says what wrote the records: PLAIN `receive` and `replay`, ROLL `roll`, EARLY `early`, FOLLOW a follower.
"""
import struct
from collections import namedtuple

PLAIN, ROLL, EARLY, FOLLOW = "plain", "roll", "early", "follow"
# (the epoch is that of `roll`; a follower's may be any number)
MOST_PAYLOAD, MOST_INTERVAL, MOST_CHAIN, MOST_EPOCH = 1200, 1_048_576, 7, 15
# The chain of a message that a follower accepted on arrival: none has proved it.
NO_CHAIN = 255

# The position says how many packets were given before, and the chain is the least that proved it. Of a follower it says how
# many records there were before. The epoch is that of `roll` or of a follower, and else 0. A message that was accepted on
# arrival is `accepted`; of `early` it has no position and no chain.
Record = namedtuple("Record", "position interval number chain payload epoch accepted", defaults=(0, False))


class Cut(Exception):
    """The bytes end within a record."""


class NoRecord(Exception):
    """The bytes are no record of this form."""


def head_size(form, mark):
    """How many bytes stand before the payload, where the first byte of the record is this one."""
    return {PLAIN: 17, ROLL: 18, EARLY: 9 if mark == 1 else 18, FOLLOW: 22}[form]


def head_of(form, head):
    """A record without its payload, and how many bytes that has."""
    kind = head[0] if form in (EARLY, FOLLOW) else 0
    if len(head) == 9:
        _, interval, number, length = struct.unpack(">BIHH", head)
        record = Record(None, interval, number, None, b"", 0, True)
    else:
        position, interval, number, chain, length = struct.unpack(">QIHBH", head[-17:])
        epoch = int.from_bytes({ROLL: head[:1], FOLLOW: head[1:5]}.get(form, b""), "big")
        record = Record(position, interval, number, chain, b"", epoch, kind == 1)
    if kind > 1 or not fits(form, record) or length > MOST_PAYLOAD:
        raise NoRecord(f"these bytes begin no record: {head.hex()}")
    return record, length


def fits(form, record):
    """Whether the numbers of a record are within their limits."""
    if form == FOLLOW and record.accepted:
        proved = record.chain == NO_CHAIN
    else:
        proved = (record.chain or 0) <= MOST_CHAIN
    return proved and 1 <= record.interval <= MOST_INTERVAL and (form != ROLL or record.epoch <= MOST_EPOCH)


def read(file, form=PLAIN):
    """The next record of a file that is open for reading bytes; None at its end. Waits for the bytes of a pipe."""
    mark = file.read(1)
    if not mark:
        return None
    head = mark + whole(file, head_size(form, mark[0]) - 1)
    record, length = head_of(form, head)
    return record._replace(payload=whole(file, length))


def whole(file, size):
    """So many bytes of a file."""
    data = b""
    while len(data) < size:
        piece = file.read(size - len(data))
        if not piece:
            raise Cut("the file ends within a record")
        data += piece
    return data


def records(file, form=PLAIN):
    """The records of a file that is open for reading bytes, each as soon as it is whole."""
    while (record := read(file, form)) is not None:
        yield record


def take(data, form=PLAIN):
    """The record with which the bytes begin, and how many of them are its own; None and 0 where there are no bytes. At Cut
    more bytes are needed: where they are still to come, call it again with these and those."""
    if not data:
        return None, 0
    size = head_size(form, data[0])
    if len(data) < size:
        raise Cut("the bytes end within a record")
    record, length = head_of(form, bytes(data[:size]))
    if len(data) < size + length:
        raise Cut("the bytes end within a record")
    return record._replace(payload=bytes(data[size:size + length])), size + length
