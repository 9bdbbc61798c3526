"""Captures and scripts: their one spelling, and the records that a text holds (FORMATS.md, "Capture", "Script").

No file here comes near 2^40 bytes, so `TooLarge` isn't among the kinds.
"""
import collections
import struct

Arrives = collections.namedtuple("Arrives", "reading bytes")
Takes = collections.namedtuple("Takes", "")
Sends = collections.namedtuple("Sends", "reading payload")
Discloses = collections.namedtuple("Discloses", "reading")

# A head, the record that carries bytes and how many these are at most, and the record of kind 2 with the bytes behind its kind.
Grammar = collections.namedtuple("Grammar", "head carrying longest bare bare_size")
CAPTURE = Grammar(b"TCAP\1", Arrives, 2_048, Takes, 0)
SCRIPT = Grammar(b"TSCR\1", Sends, 1_200, Discloses, 8)


def record_text(record):
    """The one spelling of a record."""
    if isinstance(record, (Arrives, Sends)):
        return b"\1" + struct.pack(">QH", record[0], len(record[1])) + record[1]
    return b"\2" + (struct.pack(">Q", record.reading) if isinstance(record, Discloses) else b"")


def file_text(grammar, records):
    """The one spelling of a file."""
    return grammar.head + b"".join(map(record_text, records))


def record_at(grammar, text, place):
    """The record at a place with the place behind it, or why that place is refused."""
    kind = text[place]
    if kind == 2:
        behind = place + 1 + grammar.bare_size
        fields = (int.from_bytes(text[place + 1:behind], "big"),) if grammar.bare_size else ()
        return (grammar.bare(*fields), behind) if behind <= len(text) else "Truncated"
    if kind != 1:
        return "BadKind"
    if place + 11 > len(text):
        return "Truncated"
    reading, length = struct.unpack_from(">QH", text, place + 1)
    if length > grammar.longest:
        return "TooLong"
    behind = place + 11 + length
    return (grammar.carrying(reading, text[place + 11:behind]), behind) if behind <= len(text) else "Truncated"


def outline_of(grammar, text):
    """The whole records of a file, each with its place, up to the first that is refused, and that place with its kind or None."""
    if text[:5] != grammar.head:
        return [], (0, "BadHead")
    records, place = [], 5
    while place < len(text):
        found = record_at(grammar, text, place)
        if isinstance(found, str):
            return records, (place, found)
        records.append((place, found[0]))
        place = found[1]
    return records, None


def carried_in(grammar, text):
    """What the records of a whole file carry that carry bytes: the reading and the bytes of each."""
    records, fault = outline_of(grammar, text)
    if fault:
        raise ValueError("refused at %d: %s" % fault)
    return [tuple(record) for _, record in records if isinstance(record, grammar.carrying)]


def capture_text(arrivals):
    """The capture of these arrivals, each of a reading and bytes, with a take behind each."""
    return file_text(CAPTURE, [record for arrival in arrivals for record in (Arrives(*arrival), Takes())])
