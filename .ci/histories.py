"""Histories of a receiver with their right answers, for .ci/traces.py and .ci/audits.py.

Each answer is known from how the history was made, by docs/PROTOCOL.md: what is safe, proved and held follows from the intervals,
the delays of the chains and the keys that came. The streams are those of .ci/streams.py, mostly that of crates/tesla/data.
"""
from model.files import CAPTURE, Arrives, Takes, file_text
from model.histories import Arrival, Ended, Taken, report_lines
from model.streams import altered
from model.traces import trace_text
from streams import ONE, TWO, Stream, setup_of

STREAM = Stream(0, 2, 5)
OF_ONE = Stream(0, 2)
BOTH, SLOW = ("Kept", 3), ("Kept", 2)
MALFORMED, MISFIT, FULL, KEYS = ("Malformed",), ("Misfit",), ("Full",), ("Keys",)


class History:
    """What is recorded of a receiver, and what it answered to each arrival and take."""

    def __init__(self, name, *arrivals, setup=STREAM.setup(), capacity="16"):
        self.name, self.setup, self.capacity = name, setup, capacity
        self.entries, self.given, self.late = [], 0, []
        for it in arrivals:
            self.comes(*it)

    def comes(self, reading, datagram, verdict):
        """A datagram comes."""
        self.entries.append(Arrival(0, reading, datagram, verdict))
        return self

    def gave(self, interval, payload, number=0, chain=0):
        """The answer to a take that gives a packet."""
        self.given += 1
        return Taken(0, ("Given", self.given - 1, interval, number, chain, payload))

    def gives(self, *packet):
        """A take gives a packet, which is told as by `gave`."""
        self.entries.append(self.gave(*packet))
        return self

    def empty(self):
        """A take gives nothing."""
        self.entries.append(Taken(0, ("Empty",)))
        return self

    def leaves(self, *packets):
        """These packets are given once the input has ended."""
        self.late += [self.gave(*it) for it in packets]
        return self

    def capture(self):
        """The capture of it."""
        return file_text(CAPTURE, [Arrives(*it[1:3]) if isinstance(it, Arrival) else Takes() for it in self.entries])

    def whole(self):
        """Its entries, with the end of the input and the takes behind it."""
        return [*self.entries, Ended(0), *self.late, Taken(0, ("Over",))]

    def trace(self):
        """The trace of it."""
        return trace_text(self.whole())

    def report(self):
        """The report of it."""
        return report_lines(self.whole()).encode()


def bare(interval, payload, number=0):
    """A packet without keys."""
    return STREAM.frame(interval, payload, number)


# Where the tags of both chains begin in a packet without keys, from its end.
FIRST_TAG, SECOND_TAG = -34, -17
# The packet "hi" and the disclosure of the key of interval 1 in version 2, with tags of 10 bytes.
SETUP_2 = setup_of((2, 0, ONE), (5, 0, TWO), tag=10)
HI = bare(1, b"hi")
HI_2 = b"TSLA\2" + HI[5:25] + b"\x0a" + HI[25:35] + b"\0" + HI[42:52] + b"\0"
FIRST_KEY = STREAM.told((0, 1))
FIRST_KEY_2 = b"TSLA\2" + FIRST_KEY[5:]


def of_keys():
    """What keys prove, and when packets are given."""
    A = bare(2, b"a")
    yield History(
        "a key behind a gap", *((reading, bare(interval, b"g"), BOTH) for reading, interval in (
            (1_350_000, 3), (1_360_000, 2), (1_550_000, 5), (1_560_000, 4), (1_650_000, 6))),
        (1_850_000, STREAM.told((0, 6)), KEYS)).gives(3, b"g").gives(2, b"g").leaves((5, b"g"), (4, b"g"), (6, b"g"))
    it = History("a packet that the slow chain proves", (1_250_000, altered(A, FIRST_TAG), BOTH),
                 (1_450_000, STREAM.told((0, 2)), KEYS))
    yield it.empty().comes(1_750_000, STREAM.told((1, 2)), KEYS).gives(2, b"a", 0, 1)
    yield History("three copies", *[(1_250_000, A, BOTH)] * 3, (1_450_000, STREAM.told((0, 2)), KEYS)).gives(2, b"a").empty()
    yield History("a copy of what was released", (1_250_000, A, BOTH), (1_450_000, STREAM.told((0, 2)), KEYS),
                  (1_460_000, A, ("Repeat",))).leaves((2, b"a"))
    yield History("a late packet with a key", (1_150_000, bare(1, b"a"), BOTH),
                  (1_850_000, STREAM.frame(3, b"z", 0, True), ("Late",))).leaves((1, b"a"))
    it = History("a bad key", (1_150_000, bare(1, b"a"), BOTH), (1_350_000, altered(FIRST_KEY, -32), ("BadKey", 0)))
    yield it.empty().comes(1_360_000, FIRST_KEY, KEYS).gives(1, b"a")
    yield History("the last interval", (1_850_000, bare(8, b"e"), BOTH),
                  (2_350_000, STREAM.told((0, 8), (1, 8)), KEYS)).gives(8, b"e")
    frame = OF_ONE.frame(1, b"a")
    yield History("one chain", (1_150_000, frame, ("Kept", 1)), (1_350_000, OF_ONE.told((0, 1)), KEYS),
                  (1_200_000, frame, ("Late",)), setup=OF_ONE.setup()).gives(1, b"a")
    yield History("version 2", (1_150_000, HI_2, BOTH), (1_150_000, HI, MISFIT), (1_350_000, FIRST_KEY_2, KEYS),
                  setup=SETUP_2).gives(1, b"hi")
    yield History("both keys in one frame, of which the slow one is bad", (1_150_000, bare(1, b"a"), BOTH),
                  (1_650_000, altered(STREAM.told((0, 1), (1, 1)), -1), ("BadKey", 1))).empty()


def of_places():
    """Where packets find a place, and where they don't."""
    it = History("a place that is free when all chains have passed", (1_150_000, bare(1, b"a"), BOTH),
                 (1_160_000, bare(1, b"b", 1), FULL), (1_350_000, FIRST_KEY, KEYS), capacity="1")
    it.gives(1, b"a").comes(1_360_000, bare(3, b"c"), FULL)
    yield it.comes(1_650_000, STREAM.told((1, 1)), KEYS).comes(1_660_000, bare(6, b"d"), BOTH)
    forged = altered(altered(bare(1, b"x"), FIRST_TAG), SECOND_TAG)
    yield History("a forgery that gives its place back", (1_350_000, forged, SLOW),
                  (1_650_000, STREAM.frame(6, b"d", 0, True), BOTH), capacity="1")
    came = [(1_050_000 + 100_000 * interval, bare(interval, b"", number), BOTH if interval < 3 and number < 2 else FULL)
            for interval in (1, 2, 3) for number in range(3)]
    yield History("a quota", *came, capacity="4/2")


def of_times():
    """Verdicts that readings and bytes decide."""
    frame = bare(1, b"hi")
    at = ((0, "Future", None), (969_999, "Future", None), (970_000, "Future", 0), (1_069_999, "Future", 0),
          (1_070_000, "Kept", 3), (1_269_999, "Kept", 3), (1_270_000, "Kept", 2), (1_569_999, "Kept", 2), (1_570_000, "Late"),
          (2 ** 32 + 1_150_000, "Late"), (2 ** 63 + 1_150_000, "Late"), (2 ** 64 - 1, "Late"))
    yield History("a packet at times", *((reading, frame, tuple(verdict)) for reading, *verdict in at))
    yield History("a disclosure at times", (1_269_999, FIRST_KEY, ("Future", 2)), (1_270_000, FIRST_KEY, KEYS),
                  (0, FIRST_KEY, ("Future", None)), (2 ** 64 - 1, FIRST_KEY, KEYS))
    stream = lambda place: frame[:6 + place] + b"\xff" + frame[7 + place:]
    yield History(
        "other bytes", (1_150_000, b"", MALFORMED), (1_150_000, b"T", MALFORMED), (1_150_000, bytes(2048), MALFORMED),
        (1_150_000, frame[:-1], MALFORMED), (1_150_000, frame + b"\0", MALFORMED), (1_150_000, frame[:-1] + b"\2", MALFORMED),
        (1_150_000, stream(0), ("Foreign", 0xff000000000000a7)), (1_150_000, stream(7), ("Foreign", 0xff)),
        (1_150_000, frame[:14] + bytes(4) + frame[18:], MISFIT), (1_950_000, frame[:17] + b"\x09" + frame[18:], MISFIT),
        (1_150_000, OF_ONE.frame(1, b"hi"), MISFIT), (1_150_000, HI_2, MISFIT), (1_150_000, bare(2, b"a"), ("Future", 1)),
        (1_350_000, FIRST_KEY[:15] + b"\2" + FIRST_KEY[16:], MISFIT), (1_350_000, STREAM.told((0, 2)), ("Future", 3)),
        (1_150_000, frame, BOTH))


def of_sizes():
    """None, many and long ones."""
    yield History("nothing")
    yield History("takes alone").empty().empty().empty()
    yield History("datagrams of many lengths", *((length, bytes([length % 256]) * length, MALFORMED)
                                                 for length in (*range(0, 2048, 89), 2047, 2048)))
    payloads = [bytes([number]) * size for number, size in enumerate((0, 1, 255, 256, 257, 1199, 1200))]
    it = History("payloads of many lengths",
                 *((1_150_000 + number, bare(1, payload, number), BOTH) for number, payload in enumerate(payloads)),
                 (1_350_000, FIRST_KEY, KEYS))
    for number, payload in enumerate(payloads[:4]):
        it.gives(1, payload, number)
    yield it.leaves(*((1, payload, number) for number, payload in enumerate(payloads) if number > 3))
    it = History("many packets", *((1_150_000, bare(1, b"%d" % number, number), BOTH) for number in range(400)),
                 capacity="65536")
    for _ in range(400):
        it.empty()
    it.comes(1_350_000, FIRST_KEY, KEYS)
    for number in range(300):
        it.gives(1, b"%d" % number, number)
    yield it.leaves(*((1, b"%d" % number, number) for number in range(300, 400)))


HISTORIES = [*of_keys(), *of_places(), *of_times(), *of_sizes()]
