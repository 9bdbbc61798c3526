"""Setups and seeds: their texts, and the first line of another text that is refused (FORMATS.md, "Setup file", "Seeds file")."""
import collections

from .clock import Times

ChainRow = collections.namedtuple("ChainRow", "delay index key")
Setup = collections.namedtuple("Setup", "version stream times tag_length rows")

MOST_CHAINS = {1: 4, 2: 8}
SHORTEST_TAG = {1: 16, 2: 10}
LONGEST_TAG = {1: 16, 2: 32}
# The line of the first chain.
FIRST_LINE = {1: 6, 2: 7}


class Refused(Exception):
    """A text that is refused at a line, counted from 1, with a kind."""

    def __init__(self, line, kind):
        super().__init__(line, kind)
        self.line, self.kind = line, kind


def setup_text(setup):
    """The one spelling of a setup."""
    times = setup.times
    lines = [f"tesla {setup.version}", f"stream {setup.stream:016x}"]
    lines += [f"start {times.start}", f"interval {times.length}", f"last {times.last}"]
    lines += [f"tag {setup.tag_length}"] if setup.version == 2 else []
    lines += [f"chain {row.delay} {row.index} {row.key.hex()}" for row in setup.rows]
    return "".join(f"{line}\n" for line in lines).encode()


def seeds_text(seeds):
    """The one spelling of seeds."""
    return b"tesla-seeds 1\n" + b"".join(b"seed %s\n" % seed.hex().encode() for seed in seeds)


def decimal_of(word, line):
    """The number below 2^64 that a word spells."""
    digits = word != b"" and all(byte in b"0123456789" for byte in word)
    if not digits or (word[:1] == b"0" and len(word) > 1) or int(word) >= 2 ** 64:
        raise Refused(line, "BadNumber")
    return int(word)


def within(least, most, number, line):
    """A number within limits."""
    if not least <= number <= most:
        raise Refused(line, "LimitPassed")
    return number


def hex_in(count, word, line):
    """The bytes, so many of them, that a word of lower-case digits spells."""
    if len(word) != 2 * count or not all(byte in b"0123456789abcdef" for byte in word):
        raise Refused(line, "BadHex")
    return bytes.fromhex(word.decode())


class Lines:
    """The lines of a text, one after the other. A line is what an LF ends; the last one here is what no LF ends."""

    def __init__(self, text):
        self.lines = text.split(b"\n")
        self.number = 0

    def is_end(self):
        """Nothing stands behind the lines that were taken."""
        return self.lines[self.number:] == [b""]

    def next_line(self):
        """The next line with its number."""
        if self.number + 1 >= len(self.lines):
            raise Refused(self.number + 1, "BadLine")
        self.number += 1
        return self.lines[self.number - 1], self.number

    def values(self, name, count):
        """The values, so many of them, behind a name on the next line, with its number."""
        line, number = self.next_line()
        words = line.split(b" ")
        if len(words) != count + 1 or words[0] != name:
            raise Refused(number, "BadLine")
        return words[1:], number

    def number_in(self, name, least, most):
        """The number within limits behind a name on the next line."""
        (word,), line = self.values(name, 1)
        return within(least, most, decimal_of(word, line), line)


def title_in(lines):
    """Line 1: the version."""
    line, number = lines.next_line()
    if line not in (b"tesla 1", b"tesla 2"):
        raise Refused(number, "BadLine")
    return int(line[-1:])


def stream_in(lines):
    """Line 2: the stream's number."""
    (word,), number = lines.values(b"stream", 1)
    return int.from_bytes(hex_in(8, word, number), "big")


def times_judged(lines):
    """Lines 3 to 5."""
    start = lines.number_in(b"start", 0, 2 ** 64 - 1)
    length = lines.number_in(b"interval", 1_000, 3_600_000_000)
    return Times(start, length, lines.number_in(b"last", 1, 1_048_576))


def chain_in(lines, last, before):
    """A chain that comes after one with that delay."""
    words, line = lines.values(b"chain", 3)
    delay, index = decimal_of(words[0], line), decimal_of(words[1], line)
    within(1, 4_096, delay, line)
    key = hex_in(32, words[2], line)
    if delay <= before:
        raise Refused(line, "DelaysNotRising")
    if index > last:
        raise Refused(line, "IndexPastLast")
    return ChainRow(delay, index, key)


def chains_judged(lines, version, last):
    """The chains, to the end of the text."""
    rows = []
    while not lines.is_end():
        if len(rows) == MOST_CHAINS[version]:
            raise Refused(lines.number + 1, "TooManyChains")
        rows.append(chain_in(lines, last, rows[-1].delay if rows else 0))
    if not rows:
        raise Refused(lines.number + 1, "NoChain")
    return tuple(rows)


def judged(text):
    """The setup that a text spells, or `Refused` with the first line that is refused."""
    if len(text) > 4_096:
        raise Refused(0, "TooLong")
    lines = Lines(text)
    version = title_in(lines)
    stream = stream_in(lines)
    times = times_judged(lines)
    tag_length = lines.number_in(b"tag", SHORTEST_TAG[2], LONGEST_TAG[2]) if version == 2 else LONGEST_TAG[1]
    return Setup(version, stream, times, tag_length, chains_judged(lines, version, times.last))


def first_seed(lines, number):
    """The seed on the next line, which has that number."""
    if lines.is_end():
        raise Refused(number, "WrongCount")
    (word,), _ = lines.values(b"seed", 1)
    return hex_in(32, word, number)


def seeds_judged(count, text):
    """The seeds, so many of them, that a text spells, or `Refused` with the first line that is refused."""
    if len(text) > 4_096:
        raise Refused(0, "TooLong")
    lines = Lines(text)
    if lines.is_end():
        raise Refused(1, "WrongCount")
    if lines.next_line()[0] != b"tesla-seeds 1":
        raise Refused(1, "BadLine")
    seeds = tuple(first_seed(lines, 2 + chain) for chain in range(count))
    if not lines.is_end():
        raise Refused(2 + count, "WrongCount")
    return seeds
