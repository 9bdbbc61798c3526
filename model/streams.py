"""Draws of setups, streams, readings and damage. Each is a function of a generator of random numbers."""
import random

from .clock import Times
from .keys import walk
from .senders import Stream
from .setups import LONGEST_TAG, MOST_CHAINS, ChainRow, Setup, seeds_text, setup_text

MOST_READING = 2 ** 64 - 1


class Draw(random.Random):
    """Random numbers with some forms of choice beside those of Python."""

    def chance(self, part):
        """True in that part of all draws."""
        return self.random() < part

    def pick(self, weights):
        """One of the keys, by their weights."""
        return self.choices(list(weights), list(weights.values()))[0]

    def bytes(self, most):
        """At most so many bytes, mostly few."""
        return self.randbytes(self.choice((0, 1, 2, self.randrange(most + 1))))


def delays_drawn(draw, version):
    """The delays of one chain or of several, mostly small ones."""
    most = MOST_CHAINS[version]
    count = draw.choice((1, 2, 2, 3, 4, draw.randrange(1, most + 1)))
    span = draw.choice((count, count + 2, 9, 9, 4_096))
    return sorted(draw.sample(range(1, max(span, count) + 1), count))


def times_drawn(draw):
    """The intervals of a stream; some begin or end near the limits of a reading."""
    length = draw.choice((1_000, 1_003, 100_000, 100_000, draw.randrange(1_000, 1_000_000), 3_600_000_000))
    last = draw.choice((1, 3, 6, 8, 8, 8, 12, 12, 40, 40, 1_048_576))
    limits = draw.choice((0, draw.randrange(2 ** 64), 2 ** 64 - draw.randrange(1, 9 * length)))
    return Times(draw.pick({1_000_000: 4, draw.randrange(2 ** 40): 3, limits: 1}), length, last)


def stream_drawn(draw, version=None, number=None, times=None):
    """A stream with its seeds. Where its last interval is far, its commitments are near that."""
    version = version or draw.choice((1, 2))
    times = times or times_drawn(draw)
    delays = delays_drawn(draw, version)
    seeds = tuple(draw.randbytes(32) for _ in delays)
    near = times.last - 9 if times.last > 1_000 else 0
    indexes = [near + (draw.randrange(min(times.last, 5) + 1) if draw.chance(0.2) else 0) for _ in delays]
    rows = tuple(ChainRow(delay, index, walk(seed, times.last - index)) for delay, index, seed in zip(delays, indexes, seeds))
    tag_length = draw.randrange(10, 33) if version == 2 else LONGEST_TAG[1]
    number = draw.choice((0xa7, draw.randrange(2 ** 64))) if number is None else number
    return Stream(Setup(version, number, times, tag_length, rows), seeds)


def first_interval(stream):
    """The interval with which what is sent of a stream begins here: that of the least commitment, and 1."""
    return max(1, min(row.index for row in stream.setup.rows))


def lag_drawn(draw, times):
    """A lag of either sign, mostly small; some are at its limits."""
    length = times.length
    limits = draw.choice((2 ** 63 - 1, -2 ** 63, draw.randrange(-2 ** 63, 2 ** 63), draw.randrange(5 * length)))
    around, behind = draw.randrange(-length, length), -draw.randrange(3 * length)
    return draw.pick({0: 3, 30_000: 3, length // 3: 3, around: 2, behind: 2, limits: 1})


def capacity_drawn(draw):
    """A capacity, mostly small, and perhaps a quota."""
    capacity = draw.choice((1, 2, 3, 4, 6, 16, 16, 16))
    return f"{capacity}/{draw.randrange(1, capacity + 1)}" if draw.chance(0.4) else str(capacity)


def reading_drawn(draw, times, lag, bound):
    """A reading of the receiver's clock with that bound, or beside its first or its last one."""
    first = times.start + bound * times.length - lag
    inside = first + draw.randrange(times.length)
    reading = draw.pick({inside: 6, first: 1, first + times.length - 1: 2, first - 1: 1, first + times.length: 1})
    return min(max(reading, 0), MOST_READING)


# ---- damage

def altered(text, place):
    """The bytes with this one altered by exclusive or with 1."""
    place %= len(text)
    return text[:place] + bytes([text[place] ^ 1]) + text[place + 1:]


def damaged(draw, text):
    """Bytes that were damaged: cut, altered, lengthened or shortened somewhere."""
    at = draw.randrange(len(text) + 1)
    byte = draw.randbytes(1) if draw.chance(0.6) else draw.choice((b"\0", b"\1", b"\2", b"\3", b"\xff", b"\n", b" "))
    return draw.choice((text[:at], text[:at] + byte + text[at + 1:], text[:at] + byte + text[at:], text[:at] + text[at + 1:],
                        text + byte, text[:at] + draw.randbytes(draw.randrange(20))))


WORDS = (b"", b"x", b"1a", b"0", b"00", b"1", b"+1", b"-1", b"01", b"999", b"1000", b"3600000000", b"3600000001", b"1048576",
         b"1048577", b"4096", b"4097", b"9", b"10", b"16", b"32", b"33", b"18446744073709551615", b"18446744073709551616", b"tag",
         b"chain", b"stream", b"seed", b"1\r")


def word_altered(draw, word):
    """Another word in the place of that one."""
    return draw.choice((draw.choice(WORDS), draw.choice(WORDS), word.upper(), word + b"0", word[:-1], damaged(draw, word)))


def line_altered(draw, line):
    """Another line in the place of that one."""
    words = line.split(b" ")
    at = draw.randrange(0 if draw.chance(0.1) else min(1, len(words) - 1), len(words))
    others = b" ".join([*words[:at], word_altered(draw, words[at]), *words[at + 1:]])
    return draw.pick({others: 12, line + b" ": 1, b" ".join(words[:at] + words[at + 1:]): 1, b"  ".join(words): 1})


def text_altered(draw, text):
    """A text of lines with some fault, or by chance with none."""
    lines = text.split(b"\n")[:-1]
    at, to = (draw.randrange(len(lines)) for _ in range(2))
    kind = draw.pick({"line": 8, "without": 1, "twice": 2, "exchanged": 2, "cut": 2, "unended": 1, "long": 2, "damaged": 1,
                      "rows": 2})
    if kind == "line":
        lines[at] = line_altered(draw, lines[at])
    elif kind == "exchanged":
        lines[at], lines[to] = lines[to], lines[at]
    elif kind in ("without", "twice"):
        lines[at:at + 1] = [lines[at]] * (2 if kind == "twice" else 0)
    elif kind == "cut":
        lines = lines[:at]
    elif kind == "rows":
        lines += [lines[-1]] * draw.randrange(1, 8)
    whole = b"".join(line + b"\n" for line in lines)
    long = whole + b"\n" * (4_097 - len(whole) + draw.randrange(-1, 2))
    return {"unended": whole[:-1], "long": long, "damaged": damaged(draw, whole)}.get(kind, whole)


def setup_altered(draw, setup):
    """A text that may be no setup; some have a field that is at its limits or outside them, or chains too many."""
    if draw.chance(0.6):
        return text_altered(draw, setup_text(setup))
    rows, times = setup.rows, setup.times
    at = draw.randrange(len(rows))
    row = rows[at]
    others = [row._replace(index=index) for index in (times.last, times.last + 1)]
    others += [row._replace(delay=delay) for delay in (0, 4_096, 4_097)]
    many = tuple(row._replace(delay=1 + more) for more in range(draw.randrange(4, 10)))
    fields = [{"rows": changed} for changed in ((), rows[::-1], rows + rows[-1:], many)]
    fields += [{"rows": (*rows[:at], other, *rows[at + 1:])} for other in others]
    fields += [{"times": times._replace(last=last)} for last in (0, 1, 1_048_576, 1_048_577)]
    fields += [{"tag_length": size} for size in (9, 10, 32, 33)]
    return setup_text(setup._replace(**draw.choice(fields)))


def seeds_altered(draw, seeds):
    """A text that may be no seeds file, or that has other seeds or more or fewer of them."""
    at = draw.randrange(len(seeds))
    if draw.chance(0.4):
        other = seeds[:at] + (draw.randbytes(32),) + seeds[at + 1:]
        return seeds_text(draw.choice((seeds[:-1], seeds + seeds[:1], seeds[::-1], other)))
    return text_altered(draw, seeds_text(seeds))
