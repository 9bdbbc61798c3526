#!/usr/bin/env python3
"""Prints what the program released, one line for each record, as it comes: show.py FILE [roll|early|follow [once]]
                                                                         show.py FILE,.. [follow [once]] order SECONDS [PLACES]

FILE, the lines and the status are those of show.c beside it.
"""
import os
import re
import select
import sys
import time

import tesla_once
import tesla_order
import tesla_release

USAGE = "usage: show.py FILE [roll|early|follow [once]]\n       show.py FILE,.. [follow [once]] order SECONDS [PLACES]"
MOST_FILES, MOST_PLACES, PIECE = 32, 65536, 65536


class NotWritten(Exception):
    """A line can't be written."""


def shown(payload):
    """The payload, in which every byte that is no printable character of ASCII stands as \\x and two digits, and \\ as \\\\."""
    return "".join("\\\\" if byte == 0x5c else chr(byte) if 0x20 <= byte <= 0x7e else f"\\x{byte:02x}" for byte in payload)


def line_of(form, record):
    """The line of a record."""
    if form == tesla_release.EARLY and record.accepted:
        return f"early {record.interval} {record.number}: {shown(record.payload)}"
    mark = {tesla_release.ROLL: f"{record.epoch} ", tesla_release.FOLLOW: f"{int(record.accepted)} {record.epoch} "}.get(form, "")
    return f"{mark}{record.position} {record.interval} {record.number} {record.chain}: {shown(record.payload)}"


def tell(text):
    """Tells something on standard error."""
    print(text, file=sys.stderr, flush=True)


def write(line):
    """Prints a line. Where it can't be written no later line is tried, also none that is held back."""
    try:
        print(line, flush=True)
    except OSError as error:
        tell(f"standard output: {error.strerror}")
        os.dup2(os.open(os.devnull, os.O_WRONLY), sys.stdout.fileno())
        raise NotWritten from error


class Wanted:
    """Which records are printed: those of a form, and where it is wanted so the first of each name alone."""

    def __init__(self, form, once):
        self.form, self.once = form, tesla_once.Once() if once else None

    def has(self, record):
        """Whether a record is printed, which is asked once for each."""
        return self.once is None or self.once.is_first(record)


def show_file(wanted, name):
    """Prints the records of one file, as they come, and answers the status."""
    try:
        with open(name, "rb") as file:
            for record in filter(wanted.has, tesla_release.records(file, wanted.form)):
                write(line_of(wanted.form, record))
    except tesla_release.Cut as cut:
        tell(cut)
        return 1
    except tesla_release.NoRecord:
        tell("something else than a record")
        return 2
    except OSError as error:
        tell(error)
        return 3
    return 0


def name_of(form, record, number):
    """The name of a message of the interval of a record or a gap."""
    epoch = f"{record.epoch}/" if form == tesla_release.FOLLOW else ""
    return f"{epoch}{record.interval}/{number}"


def show_events(form, events):
    """Prints what is given, and tells what is given up and what is late."""
    for event in events:
        if isinstance(event, tesla_order.Gap):
            more = f" to {name_of(form, event, event.last)}" if event.first < event.last else ""
            tell(f"gave up {name_of(form, event, event.first)}{more}")
        elif isinstance(event, tesla_order.Late):
            tell(f"late {name_of(form, event.record, event.record.number)}")
        else:
            write(line_of(form, event))


class Input:
    """A file that is read, and what was read of it and not taken yet."""

    def __init__(self, name):
        self.name, self.data = name, b""
        self.file = os.open(name, os.O_RDONLY)

    def read(self, wanted, order):
        """Reads what can be read. None where more may come, else the status at the end of the file."""
        try:
            piece = os.read(self.file, PIECE)
        except OSError as error:
            return self.ended(3, error.strerror)
        if not piece:
            return self.ended(1, "the file ends within a record") if self.data else self.ended(0, "")
        self.data += piece
        try:
            self.take(wanted, order)
        except tesla_release.NoRecord:
            return self.ended(2, "something else than a record")
        return None

    def take(self, wanted, order):
        """Takes the whole records that were read."""
        data, now = memoryview(self.data), time.monotonic()
        try:
            while True:
                record, used = tesla_release.take(data, wanted.form)
                if record is None:
                    break
                data = data[used:]
                if wanted.has(record):
                    show_events(wanted.form, order.put(record, now))
        except tesla_release.Cut:
            pass
        self.data = bytes(data)

    def ended(self, status, said):
        """Tells how the file ended."""
        if said:
            tell(f"{self.name}: {said}")
        os.close(self.file)
        return status


def show_ordered(wanted, names, wait, most):
    """Prints the records of all files by interval and number, and answers the status."""
    order, status = tesla_order.Order(wait, most), 0
    try:
        inputs = [Input(name) for name in names]
    except OSError as error:
        tell(error)
        return 3
    while inputs:
        due = order.due()
        left = None if due is None else max(0, due - time.monotonic())
        ready = select.select([it.file for it in inputs], [], [], left)[0]
        if not ready:
            show_events(wanted.form, order.past(time.monotonic()))
        for it in [it for it in inputs if it.file in ready]:
            ended = it.read(wanted, order)
            if ended is not None:
                inputs.remove(it)
                status = status or ended
    show_events(wanted.form, order.end())
    tell(f"given {order.given}, gave up {order.lost}, late {order.late}")
    return status


def wanted_by(words):
    """Which records the words behind the names of the files want, and the words that follow."""
    if words[:1] == [tesla_release.FOLLOW]:
        once = words[1:2] == ["once"]
        return Wanted(tesla_release.FOLLOW, once), words[1 + once:]
    if words in ([tesla_release.ROLL], [tesla_release.EARLY]):
        return Wanted(words[0], False), []
    return Wanted(tesla_release.PLAIN, False), words


def ordered(words):
    """Reads the words that want an order; answers None where they are others."""
    if len(words) not in (2, 3) or words[0] != "order":
        return None
    seconds, places = words[1], words[2] if len(words) == 3 else "4096"
    if not re.fullmatch(r"[0-9]+\.?[0-9]*|\.[0-9]+", seconds) or not re.fullmatch(r"[0-9]+", places):
        return None
    wait, most = float(seconds), int(places)
    return (wait, most) if wait <= 86400 and 2 <= most <= MOST_PLACES else None


def main():
    name, *words = sys.argv[1:] or [""]
    wanted, words = wanted_by(words)
    if name and not words:
        return show_file(wanted, name)
    names, how = name.split(","), ordered(words)
    if how is None or not all(names) or len(names) > MOST_FILES:
        tell(USAGE)
        return 3
    return show_ordered(wanted, names, *how)


try:
    sys.exit(main())
except NotWritten:
    sys.exit(4)
