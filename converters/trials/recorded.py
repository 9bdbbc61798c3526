"""Three histories of a receiver, as the model tells them: a good stream, one whose network becomes slow, and a flood."""
import functools
import os
import random
import sys

HERE = os.path.dirname(os.path.abspath(__file__))
sys.path.insert(0, os.path.dirname(os.path.dirname(HERE)))

from model.clock import Times  # noqa: E402
from model.files import Arrives, Takes  # noqa: E402
from model.frames import DataFrame, KeyRow, KeysFrame, TagRow, frame_text  # noqa: E402
from model.histories import Config, played  # noqa: E402
from model.senders import due_rows, message_frame, stream_of  # noqa: E402
from model.setups import setup_text  # noqa: E402
from model.traces import tail_text, trace_text  # noqa: E402

START, LENGTH, LAST = 1_767_225_600_000_000, 100_000, 60
LAG, CAPACITY = 30_000, 32
STREAM = stream_of(2, 0xa7, Times(START, LENGTH, LAST), 10, (2, 5), (b"\x11" * 32, b"\x22" * 32))
SETUP = setup_text(STREAM.setup)


def sent(draw):
    """The frames of a feed, each with the moment at which it is sent: three messages in most intervals, and keys in the others."""
    for interval in range(1, LAST + 6):
        begin = START + interval * LENGTH
        count = 0 if interval > LAST or interval in (17, 18, 40) else 3
        for number in range(count):
            yield begin + 5_000 + number * 30_000 + draw.randrange(3_000), message_frame(STREAM, interval, number, b"message")
        if count == 0 and due_rows(STREAM, interval):
            yield begin + 1_000, KeysFrame(2, 0xa7, due_rows(STREAM, interval))


def forged(draw, interval, kind):
    """What somebody sends in an interval who has no keys."""
    rows = tuple(TagRow(draw.randbytes(10), None) for _ in range(2))
    frame = DataFrame(2, 0xa7, interval, draw.randrange(100, 120), b"forged", 10, rows)
    if kind == "malformed":
        return b"TSLA" + draw.randbytes(9)
    if kind == "foreign":
        frame = frame._replace(stream=draw.choice((0xb1, 0xb1, 0xc5)))
    elif kind == "misfit":
        frame = draw.choice((frame._replace(interval=LAST + 1), frame._replace(rows=rows[:1]), frame._replace(version=1, tag_length=16, rows=tuple(
            TagRow(draw.randbytes(16), None) for _ in range(2)))))
    elif kind == "badkey":
        frame = KeysFrame(2, 0xa7, (KeyRow(0, interval - 2, draw.randbytes(32)),))
    elif kind == "future":
        frame = frame._replace(interval=interval + 3)
    return frame_text(frame)


def good(draw):
    """A network of 5 to 25 ms, which loses two of a hundred."""
    return [(at + draw.randrange(5_000, 25_000), frame_text(frame)) for at, frame in sent(draw) if draw.random() > 0.02]


def late(draw):
    """A network whose way grows from 10 to 640 ms and shrinks again, and which then brings nothing for two intervals."""
    found = []
    for at, frame in sent(draw):
        if 52 <= (at - START) // LENGTH < 54:
            continue
        part = min(1, max(0, 1 - abs(at - START - 33 * LENGTH) / (17 * LENGTH)))
        found.append((at + 10_000 + int(630_000 * part) + draw.randrange(9_000), frame_text(frame)))
    return found


def flood(draw):
    """The good one, and a flood beside it."""
    kinds = {"malformed": 12, "foreign": 6, "misfit": 2, "badkey": 3, "future": 1, "kept": 5}
    found = good(draw)
    for interval in range(22, 30):
        for kind, count in kinds.items():
            # (a wrong key is judged where it comes before the right one, and LAG lets it come before its interval)
            least, most = (-25_000, -5_000) if kind == "badkey" else (20_000, 95_000)
            found += [(START + interval * LENGTH + draw.randrange(least, most), forged(draw, interval, kind)) for _ in range(count)]
    return found


def history_of(arrivals):
    """The history of a receiver to which this comes, of which a sink takes once behind each arrival, and at the end all."""
    records = [record for it in sorted(arrivals) for record in (Arrives(*it), Takes())]
    return played(Config(STREAM.setup, LAG, CAPACITY, CAPACITY), records, True)


# Histories beside the three.
extra = {}


@functools.lru_cache(maxsize=None)
def histories():
    """The three histories, by their names."""
    return {make.__name__: history_of(make(random.Random(make.__name__))) for make in (good, late, flood)}


def traces():
    """The traces of these, and a tail of each, by their names."""
    found = {}
    for name, history in {**histories(), **extra}.items():
        entries = list(history)
        found[name] = trace_text(entries)
        found[f"{name}, its tail"] = tail_text(len(entries) // 3, entries[len(entries) // 3:])
    return found
