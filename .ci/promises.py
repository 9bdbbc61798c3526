"""Runs of weave and early, for .ci/texts.

What is expected is made here and spelled by the model; the runs of tests/early were made by another program. Each case is as in
.ci/texts. The cases of early are of the stream of crates/tesla/data.
"""
import collections

from program import OPEN
from model.clock import interval_of
from model.files import SCRIPT, Discloses, Sends, file_text
from model.promises import woven as woven_payloads
from running import stored
from streams import FALLING, Stream, accepted, plain, promising, refused, released, report

STORED = stored("early")
WEAVE, EARLY = "weave setup script out 1", "early setup 30000 16 capture out"
STREAM = Stream(0, 2, 5)
# How many of the promises that were learnt last count.
LAST = 4096


def script(*records):
    """A script of messages, which are a reading and a body, and of disclosures, which are a reading alone."""
    return file_text(SCRIPT, [Sends(*it) if len(it) == 2 else Discloses(*it) for it in records])


def woven(gap, *records):
    """The script of these records, in which each message promises the one so many messages behind it."""
    messages, names, counts = [it for it in records if len(it) == 2], [], collections.Counter()
    for reading, _ in messages:
        interval = interval_of(STREAM.times, reading)
        names.append((interval, counts[interval]))
        counts[interval] += 1
    payloads = iter(woven_payloads(gap, names, [body for _, body in messages]))
    return script(*((it[0], next(payloads)) if len(it) == 2 else it for it in records))


def weave(name, gap, *records):
    """A run of weave over a script of these records, which is woven."""
    count = sum(len(it) == 2 for it in records)
    return (f"weave: {name}", f"weave setup script out {gap}", 0, b"messages %d\n" % count,
            {"out": woven(gap, *records)}, {"script": script(*records)})


def unwoven(name, what, text, line=WEAVE):
    """A run of weave over a script that is refused; the output holds what it did before."""
    return (f"weave: {name}", line, 3, refused(f"script {what}"), {}, {"script": text})


# Messages in four intervals, which carry several numbers, with disclosures of which the first ones tell no key.
MANY = [(0,), (1_150_000, b"a"), (1_150_000, b""), (1_199_999, b"c"), (1_200_000, b"d"), (1_250_000,), (1_250_000, b"e" * 1161),
        (1_350_000,), (1_450_000, b"\1" * 40), (1_450_001, b"g"), (1_450_002, b"h"), (1_899_999, b"i"), (1_899_999, b"j"),
        (2_350_000,), (9_000_000,)]
IN_ONE = [(1_100_000 + at, b"") for at in range(65_536)]
AT, LONG = (1_150_000, b"a"), b"x" * 1162
WEAVES = [
    *(it for it in STORED if it[1].startswith("weave")),
    *(weave(f"ten messages and a gap of {gap}", gap, *MANY) for gap in (1, 2, 3, 9, 10, 1_000_000)),
    weave("no records", 1),
    weave("no messages", 1, (1_250_000,), (2_350_000,)),
    weave("one message", 1, AT),
    weave("as many messages of an interval as there may be", 1, *IN_ONE, (1_200_000, b"a")),
    weave("a gap of as many messages", 65_536, *IN_ONE, (1_200_000, b"a")),
    weave("a message before the interval of a disclosure that told nothing", 1, (1_250_000,), AT),
    unwoven("message before the first interval", "5 Early", script((1_099_999, b"a"))),
    unwoven("long body before the start", "17 Early", script(AT, (999_999, LONG))),
    unwoven("message after the last interval", "26 Over", script(AT, (1_350_000,), (1_900_000, b"a"))),
    unwoven("long body after the last interval", "5 Over", script((1_900_000, LONG))),
    unwoven("message before the interval of another", "17 Backward", script((1_250_000, b"a"), AT)),
    unwoven("message before the interval of a disclosure", "14 Backward", script((1_350_000,), (1_250_000, b"a"))),
    unwoven("disclosure before the interval of a message", "17 Backward", script((1_450_000, b"a"), (1_350_000,))),
    unwoven("message too many in an interval", "720901 IntervalFull", script(*IN_ONE, (1_199_999, b""))),
    unwoven("long body too many in an interval", "720901 IntervalFull", script(*IN_ONE, (1_199_999, LONG))),
    unwoven("long body before a message that is refused too", "5 LongBody", script((1_150_000, LONG), (1_099_999, b"a"))),
    unwoven("long body before a record that is cut", "17 LongBody", script(AT, (1_150_000, LONG), AT)[:-1]),
    unwoven("body of 1,200 bytes", "5 LongBody", script((1_150_000, b"x" * 1200))),
    unwoven("body of 1,201 bytes", "5 TooLong", script((1_150_000, b"x" * 1201))),
    unwoven("script that is cut within a body", "17 Truncated", script(AT, (1_150_000, b"bc"))[:-1]),
    unwoven("script that is cut within a reading", "17 Truncated", script(AT, (1_350_000,))[:-1]),
    unwoven("record of another kind", "17 BadKind", script(AT) + b"\3"),
    unwoven("head of a capture", "0 BadHead", b"TCAP\1"),
    unwoven("empty script", "0 BadHead", b""),
    unwoven("SETUP in the place of SCRIPT", "0 BadHead", b"", "weave setup setup out 1"),
    unwoven("refused SCRIPT, and SCRIPT-OUT in a folder that is missing", "0 BadHead", b"", "weave setup script nothing/out 1"),
    ("weave: refused SETUP, and SCRIPT that is missing", "weave setup nothing out 1", 2, refused("setup 7 DelaysNotRising"), {},
     {"setup": FALLING}),
    ("weave: SETUP that is missing", "weave nothing script out 1", 7, OPEN, {}, {}),
    ("weave: SCRIPT that is missing", "weave setup nothing out 1", 7, OPEN, {}, {}),
    ("weave: SCRIPT-OUT in a folder that is missing", "weave setup script nothing/out 1", 7, OPEN, {"nothing/out": None}, {}),
]


class Recording:
    """A capture that is played by early, and what comes of it. Its first packets are of interval 1, and are given in
    interval 3."""

    def __init__(self, *payloads):
        self.records, self.out, self.early = [], [], 0
        self.counts = {"arrivals": 0, "kept": 0, "keys": 0, "given": 0}
        for number, payload in enumerate(payloads):
            self.comes(1, payload, number)
        self.gives(1, *((payload, number) for number, payload in enumerate(payloads)))

    def counted(self, count, by=1):
        """So many more are counted."""
        self.counts[count] = self.counts.get(count, 0) + by

    def gives(self, interval, *given):
        """The key of an interval comes, and these packets of it are given, of which each is a payload and a number."""
        self.records += [STREAM.disclosure(interval), b"\2" * (len(given) - 1)]
        self.out += [b"\0" + released(position, interval, payload, number)
                     for position, (payload, number) in enumerate(given, self.counts["given"])]
        self.counted("arrivals")
        self.counted("keys")
        self.counted("given", len(given))

    def comes(self, interval, payload, number=0, verdict="kept", at=None, frame=None):
        """A packet comes, in its interval and as its sender made it if not said."""
        self.records.append(STREAM.arrival(interval if at is None else at, frame or STREAM.frame(interval, payload, number)))
        self.counted("arrivals")
        self.counted(verdict)

    def accepts(self, interval, payload, number=0, verdict="kept", at=None, frame=None):
        """A packet comes, which is accepted on arrival."""
        self.comes(interval, payload, number, verdict, at, frame)
        self.out.append(accepted(interval, payload, number))
        self.early += 1

    def case(self, name, capacity="16", cut=None):
        """The run of early over it; over a capture that is cut within a record, which begins so, where that is said."""
        capture = b"TCAP\1" + b"".join(self.records)
        status, printed = 0, report(**self.counts) + b"early %d\n" % self.early
        if cut is not None:
            status, printed = 3, refused(f"capture {len(capture)} Truncated")
        return (f"early: {name}", f"early setup 30000 {capacity} capture out", status, printed, {"out": b"".join(self.out)},
                {"capture": capture + (cut or b"")})


P, Q = plain(b"p"), plain(b"q")


def copies():
    """Copies of a message, beside others and beside promises that aren't of it."""
    it = Recording(promising(b"a", 5, P))
    it.comes(5, Q)
    it.comes(5, P, 1)
    it.comes(6, P)
    it.accepts(5, P)
    it.comes(5, P)
    yield it.case("another payload, number or interval, the message, and a copy")
    yield it.case("CAPTURE that is cut", cut=b"\1\0\0")

    it = Recording(promising(b"a", 5, P), promising(b"b", 5, P))
    it.accepts(5, P)
    it.accepts(5, P)
    it.comes(5, P)
    yield it.case("two promises of one message, and three copies of it")

    it = Recording(promising(b"a", 5, P), promising(b"b", 5, Q))
    it.accepts(5, Q)
    it.comes(5, Q)
    it.accepts(5, P)
    it.comes(5, P)
    yield it.case("two promises of one name, with two payloads")

    it = Recording(promising(b"a", 5, P))
    it.accepts(5, P, frame=STREAM.frame(5, P)[:-34] + bytes(34))
    it.comes(5, P)
    yield it.case("a copy under other tags, and then the message")

    it = Recording(promising(b"a", 65_536 + 5, P), promising(b"b", 5, P, 256))
    it.comes(5, P)
    it.comes(5, P, 1)
    it.accepts(5, P, 256)
    yield it.case("names of which some bytes are the same")


def verdicts():
    """Verdicts with which a promised message is accepted, and others."""
    it = Recording(promising(b"", 1, P))
    it.accepts(1, P, verdict="repeat", at=3)
    it.comes(1, P, verdict="repeat", at=3)
    yield it.case("a promise for its own name, whose message is a repetition")

    it = Recording(promising(b"a", 5, P))
    it.accepts(5, P, verdict="late", at=10)
    yield it.case("a message that is late")

    it = Recording(promising(b"a", 5, P))
    it.accepts(5, P, verdict="full")
    yield it.case("a message without a place", "1")

    it = Recording(*(promising(b"a", interval, P) for interval in (5, 5, 9, 0)))
    it.accepts(5, P)
    frame = STREAM.frame(5, P)
    it.comes(5, P, verdict="future", at=4)
    it.comes(5, P, verdict="foreign", frame=frame[:13] + b"\xa8" + frame[14:])
    it.comes(5, P, verdict="malformed", frame=frame + b"\0")
    it.comes(5, P, verdict="malformed", frame=frame[:-1])
    it.comes(5, P, verdict="badkey", frame=frame[:-18] + b"\1" + bytes(32) + frame[-17:])
    it.comes(5, P, verdict="misfit", frame=frame[:-35] + b"\1" + frame[-34:-17])
    it.comes(9, P, verdict="misfit", frame=frame[:17] + b"\x09" + frame[18:])
    it.comes(0, P, verdict="misfit")
    yield it.case("two promises of a message, which is accepted once, and has verdicts with which nothing is")


def payloads():
    """Payloads that promise something, and that don't."""
    it = Recording(promising(b"", 5, P)[:-1], b"\2" + promising(b"a", 5, P)[1:], b"\0" + promising(b"a", 5, P)[1:], b"\1", b"")
    it.comes(5, P)
    yield it.case("payloads that promise nothing")

    it = Recording(promising(b"", 5, P), promising(b"a" * 1161, 6, b""))
    it.accepts(5, P)
    it.accepts(6, b"")
    yield it.case("the shortest payload with a promise, and the longest, which is of an empty payload")

    third = promising(b"c", 7, P)
    second = promising(b"b", 5, third, 7)
    first = promising(b"a", 5, second, 1)
    it = Recording(promising(b"", 5, first))
    it.comes(5, third, 7)
    it.accepts(5, first)
    it.accepts(5, second, 1)
    it.accepts(5, third, 7)
    it.accepts(7, P)
    # (one of the third message came before the others)
    it.gives(5, (third, 7), (first, 0), (second, 1))
    yield it.case("promises of messages that were accepted, and which are given later")


def last_promises():
    """Promises of which only those that were learnt last count."""
    numbered = [promising(b"", 5, plain(b"%d" % number), number) for number in range(LAST)]
    zero, two, newest = plain(b"0"), plain(b"2"), plain(b"%d" % (LAST - 1))
    it = Recording(*numbered)
    it.accepts(5, zero)
    it.accepts(5, newest, LAST - 1)
    yield it.case("the oldest and the newest of the last 4,096 promises", "8192")

    teaching = promising(b"", 6, Q)
    numbered[1] = promising(b"", 5, teaching, 1)
    it = Recording(*numbered)
    it.accepts(5, teaching, 1)
    it.comes(5, zero)
    it.accepts(5, two, 2)
    it.accepts(6, Q)
    yield it.case("a promise before the last 4,096, one of which was used", "8192")

    numbered[2] = numbered[0]
    it = Recording(*numbered)
    it.accepts(5, zero)
    it.accepts(5, teaching, 1)
    it.accepts(5, zero)
    it.comes(5, zero)
    yield it.case("two promises of one message, the older of which is used first", "8192")


EARLIES = [
    *(it for it in STORED if it[1].startswith("early")),
    *copies(), *verdicts(), *payloads(), *last_promises(),
    ("early: a capture without promises", EARLY, 0, report(arrivals=2, kept=2, given=1) + b"early 0\n",
     {"out": b"\0" + released(0, 1, b"hi")}, {}),
    ("early: a capture without records", EARLY, 0, report() + b"early 0\n", {"out": b""}, {"capture": b"TCAP\1"}),
    ("early: CAPTURE that is no capture", EARLY, 3, refused("capture 0 BadHead"), {"out": b""}, {"capture": b"TSCR\1"}),
    ("early: SETUP that is missing", "early nothing 30000 16 capture out", 7, OPEN, {}, {}),
    ("early: CAPTURE that is missing", "early setup 30000 16 nothing out", 7, OPEN, {}, {}),
    ("early: OUT in a folder that is missing", "early setup 30000 16 capture nothing/out", 7, OPEN, {"nothing/out": None}, {}),
    ("early: refused SETUP, and CAPTURE that is missing", "early setup 30000 16 nothing out", 2,
     refused("setup 7 DelaysNotRising"), {}, {"setup": FALLING}),
]


def whole(name, gap, frames, out, counts, *records):
    """A script of these records that is woven, sent, and played by early."""
    early = sum(it[:1] == b"\1" for it in out)
    return (name, [
        (f"weave setup script woven {gap}", 0, b"messages %d\n" % sum(len(it) == 2 for it in records)),
        ("send setup secret woven sent", 0, b"frames %d\n" % frames),
        ("early setup 30000 16 sent out", 0, report(**counts) + b"early %d\n" % early),
    ], {"woven": woven(gap, *records), "out": b"".join(out)}, {"script": script(*records)})


def run_named(name):
    """What the stored run of this name holds: its inputs and its outputs."""
    return next({**it[4], **it[5]} for it in STORED if it[0].endswith(f": {name}"))


def chain_of_five():
    """Five messages of which each promises the next one; the first is given before the others come."""
    last = plain(b"e")
    fourth = promising(b"d", 6, last)
    third = promising(b"c", 5, fourth, 2)
    second = promising(b"b", 5, third, 1)
    first = promising(b"a", 5, second)
    out = [b"\0" + released(0, 1, first), accepted(5, second), accepted(5, third, 1), accepted(5, fourth, 2), accepted(6, last)]
    # (the message in interval 6 tells the keys of intervals 4 and 1)
    return whole("a chain of promises", 1, 6, out, {"arrivals": 6, "kept": 5, "keys": 1, "given": 1},
                 (1_150_000, b"a"), (1_350_000,), (1_550_000, b"b"), (1_555_000, b"c"), (1_560_000, b"d"), (1_650_000, b"e"))


ACCEPTED, WOVEN = run_named("promised-packet-is-accepted-on-arrival"), run_named("script-is-woven")
SEQUENCES_OF_PROMISES = [
    ("a message that is accepted on arrival", [
        ("weave setup script woven 1", 0, b"messages 2\n"),
        ("send setup secret woven sent", 0, b"frames 3\n"),
        ("early setup 30000 16 sent out", 0, report(arrivals=3, kept=2, keys=1, given=1) + b"early 1\n"),
    ], {"woven": WOVEN["woven"], "sent": ACCEPTED["capture"], "out": ACCEPTED["out"]}, {"script": WOVEN["script"]}),
    chain_of_five(),
]
