"""Release records: their one spelling, and the records that a text holds (FORMATS.md, "Release record", "Record of a
follower")."""
import collections
import struct

# What is told of a packet that was given: how many were given before, its name, the chain that proves it, and its payload.
Record = collections.namedtuple("Record", "position interval number chain payload")
# A message that was accepted on arrival.
Accepted = collections.namedtuple("Accepted", "interval number payload")
HEAD, ACCEPTED_HEAD, FOLLOW_HEAD = struct.Struct(">QIHBH"), struct.Struct(">IHH"), struct.Struct(">BI")


def release_text(record):
    """The one spelling of the record of a packet that was given."""
    return HEAD.pack(*record[:4], len(record.payload)) + record.payload


def marked_text(mark, record):
    """The same behind one byte, which tells its epoch or its kind."""
    return bytes([mark]) + release_text(record)


def follow_text(kind, epoch, record):
    """The same behind what a follower writes before it: the kind, 0 of a packet that was released and 1 of a message that was
    accepted on arrival, and the epoch."""
    return FOLLOW_HEAD.pack(kind, epoch) + release_text(record)


def accepted_text(message):
    """The one spelling of the record of a message that was accepted on arrival."""
    return b"\1" + ACCEPTED_HEAD.pack(*message[:2], len(message.payload)) + message.payload


def record_at(text, place, head=HEAD, kind=Record):
    """The record at a place, and the place behind it."""
    *fields, length = head.unpack_from(text, place)
    behind = place + head.size + length
    if behind > len(text):
        raise ValueError("a record is cut")
    return kind(*fields, text[behind - length:behind]), behind


def records_in(text):
    """The records of a text, in order."""
    place = 0
    while place < len(text):
        record, place = record_at(text, place)
        yield record


def marked_in(text):
    """The byte before each record of a text, and the record."""
    place = 0
    while place < len(text):
        mark, (record, place) = text[place], record_at(text, place + 1)
        yield mark, record


def follows_in(text):
    """The kind and the epoch before each record of a text that a follower wrote, and the record."""
    place = 0
    while place < len(text):
        kind, epoch = FOLLOW_HEAD.unpack_from(text, place)
        record, place = record_at(text, place + FOLLOW_HEAD.size)
        yield kind, epoch, record


def early_in(text):
    """The records of a text that `early` wrote, of packets that were given and of messages that were accepted on arrival."""
    place = 0
    while place < len(text):
        record, place = record_at(text, place + 1, *((ACCEPTED_HEAD, Accepted) if text[place] else ()))
        yield record
