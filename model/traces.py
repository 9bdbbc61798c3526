"""Traces and tails: histories with every answer, or the last of it, as files, and as they are shown (DEFINITIONS.md, "Trace")."""
import struct

from .frames import DataFrame, frame_of
from .histories import Arrival, Ended, Taken, given_by, gives
from .records import release_text
from .verdicts import REPLIES, VERDICTS

HEAD, TAIL_HEAD = b"TTRC\1", b"TTAL\1"


def verdict_text(verdict):
    """A verdict: its number, and what it tells beside that."""
    name, *told = verdict
    number = bytes([1 + VERDICTS.index(name)])
    if name == "Foreign":
        return number + struct.pack(">Q", *told)
    if name == "Future":
        return number + (b"\0" if told[0] is None else b"\1" + struct.pack(">Q", *told))
    return number + bytes(told)


def entry_text(entry):
    """The one spelling of an entry."""
    if isinstance(entry, Arrival):
        fields = struct.pack(">BQH", entry.ingest, entry.reading, len(entry.bytes))
        return b"\1" + fields + entry.bytes + verdict_text(entry.verdict)
    if isinstance(entry, Taken):
        return bytes([2, entry.releaser, REPLIES.index(entry.reply[0])]) + (release_text(given_by(entry)) if gives(entry) else b"")
    return bytes([3, entry.ingest])


def trace_text(history, ingests=1):
    """The one spelling of a trace."""
    return HEAD + bytes([ingests]) + b"".join(map(entry_text, history))


def tail_text(first, history):
    """The one spelling of a tail of these entries, before which there are so many others."""
    return TAIL_HEAD + struct.pack(">Q", first) + b"".join(map(entry_text, history))


class Wrong(Exception):
    """The bytes at the place of an entry are none; the kind says why."""


class Parts:
    """The parts of an entry, from left to right."""

    def __init__(self, text, place):
        self.text, self.place = text, place

    def bytes_part(self, count):
        """So many bytes."""
        if self.place + count > len(self.text):
            raise Wrong("Truncated")
        self.place += count
        return self.text[self.place - count:self.place]

    def number_part(self, count):
        """A number of so many bytes."""
        return int.from_bytes(self.bytes_part(count), "big")

    def counted_part(self, most):
        """At most so many bytes behind their number."""
        count = self.number_part(2)
        if count > most:
            raise Wrong("TooLong")
        return self.bytes_part(count)

    def code_part(self, names, first):
        """A byte that stands for one of these names, of which the first has that number."""
        code = self.number_part(1)
        if not first <= code < first + len(names):
            raise Wrong("BadCode")
        return names[code - first]

    def verdict_part(self):
        """A verdict."""
        name = self.code_part(VERDICTS, 1)
        if name == "Future":
            return name, self.number_part(8) if self.code_part((False, True), 0) else None
        sizes = {"Foreign": 8, "BadKey": 1, "Kept": 1}
        return (name, self.number_part(sizes[name])) if name in sizes else (name,)

    def reply_part(self):
        """An answer to a take."""
        name = self.code_part(REPLIES, 0)
        if name != "Given":
            return (name,)
        return name, *(self.number_part(count) for count in (8, 4, 2, 1)), self.counted_part(1_200)

    def entry_part(self):
        """An entry."""
        kind = self.number_part(1)
        if kind == 1:
            return Arrival(self.number_part(1), self.number_part(8), self.counted_part(2_048), self.verdict_part())
        if kind == 2:
            return Taken(self.number_part(1), self.reply_part())
        if kind == 3:
            return Ended(self.number_part(1))
        raise Wrong("BadKind")


def entries_from(text, place):
    """The whole entries from a place on, before the first place that is refused, and that place with its kind or None."""
    entries = []
    while place < len(text):
        parts = Parts(text, place)
        try:
            entries.append(parts.entry_part())
        except Wrong as wrong:
            return entries, (place, str(wrong))
        place = parts.place
    return entries, None


def trace_outline_of(text):
    """The number of ingests, the whole entries before the first place that is refused, and that place with its kind or None."""
    if text[:5] != HEAD or len(text) < 6 or not 1 <= text[5] <= 32:
        return None, [], (0, "BadHead")
    return text[5], *entries_from(text, 6)


def tail_outline_of(text):
    """The same of a tail, with the number of the entries before it."""
    if text[:5] != TAIL_HEAD or len(text) < 13:
        return None, [], (0, "BadHead")
    return int.from_bytes(text[5:13], "big"), *entries_from(text, 13)


def whole(outline):
    """What an outline has of a text that isn't refused: the number of its head, and its entries."""
    *found, fault = outline
    if fault:
        raise ValueError("refused at %d: %s" % fault)
    return found


def answer_in(entry):
    """The answer of an entry; an end has none."""
    return entry.verdict if isinstance(entry, Arrival) else entry.reply if isinstance(entry, Taken) else ()


def answer_line(answer):
    """The name of an answer, followed by its numbers, and of a payload how many bytes it has."""
    name, *told = answer
    numbers = [len(it) if isinstance(it, bytes) else "none" if it is None else it for it in told]
    return " ".join(map(str, [name, *numbers]))


def named(text):
    """The interval and the number of a data frame as they are printed; a hyphen for other bytes."""
    frame = frame_of(text)
    return f"{frame.interval}/{frame.number}" if isinstance(frame, DataFrame) else "-"


def shown_line(entry):
    """The line of an entry without its number."""
    if isinstance(entry, Arrival):
        return f"arrival {entry.ingest} {entry.reading} {answer_line(entry.verdict)} {named(entry.bytes)}"
    return f"take {entry.releaser} {answer_line(entry.reply)}" if isinstance(entry, Taken) else f"end {entry.ingest}"


def shown(history, first=0):
    """What `show` prints of these entries, of which the first has this number."""
    return "".join(f"{number} {shown_line(entry)}\n" for number, entry in enumerate(history, first)).encode()
