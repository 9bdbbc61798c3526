"""Runs of audit, and of show over traces that are refused, for .ci/texts.

A trace whose answers are right comes from .ci/histories.py, or is one of tests/trace, which another program made. Here one thing
of it is altered: so the right answer is the one that stood there before, or one that docs/PROTOCOL.md gives. Each run of several
lines audits several files, of which each has another fault.
"""
import struct

from program import OPEN
from histories import FIRST_TAG, HISTORIES, SECOND_TAG, SETUP_2
from model.histories import Arrival, Ended, Taken
from model.streams import altered
from model.traces import answer_in, answer_line, entry_text, shown, tail_text, trace_outline_of, trace_text, whole
from model.verdicts import VERDICTS
from running import stored
from streams import FALLING, SETUP_OF_ONE, refused

STORED = stored("trace")
AUDIT = "audit setup 30000 16 trace"


def refuted(number, answer):
    """The line of a wrong answer, in whose place this one is right."""
    return f"refuted {number} {answer_line(answer)}\n".encode()


def audits(name, entries, status, printed, ingests=1, line=AUDIT, **files):
    """A run of audit over a trace of these entries."""
    return (f"audit: {name}", line, status, printed, {}, {"trace": trace_text(entries, ingests), **files})


def legal(name, entries, ingests=1, **files):
    """A run of audit over a trace in which all answers are right."""
    return audits(name, entries, 0, b"legal %d\n" % len(entries), ingests, **files)


# Verdicts that are told in the place of others.
TOLD = [
    ("Malformed",), ("Foreign", 166), ("Foreign", 167), ("Foreign", 166 + 2 ** 56), ("Misfit",), ("Future", None), ("Future", 0),
    ("Future", 1), ("Future", 2), ("Future", 1 + 2 ** 56), ("BadKey", 0), ("BadKey", 1), ("BadKey", 255), ("Late",), ("Repeat",),
    ("Full",), ("Kept", 0), ("Kept", 1), ("Kept", 2), ("Kept", 3), ("Kept", 7), ("Kept", 131), ("Keys",),
]


def other_answers(answer):
    """Other answers to a take: of the other kinds, and a packet with one other number, or another payload."""
    if answer[0] != "Given":
        return [("Over",) if answer == ("Empty",) else ("Empty",), ("Given", 0, 1, 0, 0, b"hi"), ("Given", 0, 2, 0, 0, b"a"),
                ("Given", 2, 3, 0, 0, b"z"), ("Given", 0, 0, 0, 0, b"")]
    name, *numbers, payload = answer
    tops = (2 ** 63, 2 ** 31, 2 ** 15, 2 ** 7)
    others = [(name, *(it ^ (one if at == place else 0) for at, it in enumerate(numbers)), payload)
              for place, top in enumerate(tops) for one in (1, top)]
    payloads = [payload[:-1], payload + b"\0", payload + bytes(256), (payload * 600)[:1200], payload * 2, bytes(len(payload))]
    payloads += [altered(payload, 0), altered(payload, -1)] if payload else []
    others += [(name, *numbers, it) for it in payloads if it != payload and len(it) <= 1200]
    return [("Empty",), ("Over",), *others]


def with_answer(entry, answer):
    """The entry with another answer."""
    return entry._replace(**{"verdict" if isinstance(entry, Arrival) else "reply": answer})


def told_otherwise(name, words, setup, ingests, entries):
    """For each entry with an answer a run over traces that tell others in its place."""
    for number, entry in enumerate(entries):
        right = answer_in(entry)
        if not right:
            continue
        others = [it for it in TOLD if it != right] if isinstance(entry, Arrival) else other_answers(right)
        files = {f"{at}-{answer_line(it).replace(' ', '-')}":
                 trace_text([*entries[:number], with_answer(entry, it), *entries[number + 1:]], ingests)
                 for at, it in enumerate(others)}
        lines = [(f"{words} {it}", 8, refuted(number, right)) for it in files]
        yield f"audit: {name}: entry {number}, {answer_line(right)}, told otherwise", lines, {}, {"setup": setup, **files}


def stored_legal():
    """Of each stored trace whose answers are right its name, the words of its audit without its name, its setup, how many
    ingests it is of, and its entries."""
    for name, line, status, printed, outputs, inputs in STORED:
        command, *words = line.split()
        if command == "trace" or printed.startswith(b"legal"):
            trace = outputs.get("trace-out") or inputs["trace-in"]
            yield name, " ".join(["audit", *words[:3]]), inputs["setup"], *whole(trace_outline_of(trace))


def of_histories():
    """Runs over the histories, and over each with one answer told otherwise: one run for each entry."""
    for it in HISTORIES:
        entries, words = it.whole(), f"audit setup 30000 {it.capacity}"
        answered = [at for at, entry in enumerate(entries) if answer_in(entry)]
        wrong = {f"wrong{at}": trace_text([*entries[:at], with_answer(entries[at], other(entries[at], at)), *entries[at + 1:]])
                 for at in (answered if len(answered) < 40 else answered[::60])}
        lines = [(f"{words} trace", 0, b"legal %d\n" % len(entries))]
        lines += [(f"{words} {name}", 8, refuted(int(name[5:]), answer_in(entries[int(name[5:])]))) for name in wrong]
        yield f"audit: {it.name}", lines, {}, {"setup": it.setup, "trace": it.trace(), **wrong}


def other(entry, at):
    """Another answer than that of an entry."""
    others = [it for it in TOLD if it != entry.verdict] if isinstance(entry, Arrival) else other_answers(entry.reply)
    return others[at % len(others)]


# The entries of a trace whose first packet, "hi", is given behind the end, and the places of what is altered in it.
_, BASE = next(whole(trace_outline_of(it[4]["trace-out"])) for it in STORED if it[0].endswith(": trace-is-written"))
FIRST, SECOND, END, GIVEN, OVER = BASE
KEY = 22 + 2 + 1 + 17


def of_events():
    """Traces in which what came is altered, and not what was answered."""
    def first(**what):
        return [FIRST._replace(**what), *BASE[1:]]

    def second(**what):
        return [FIRST, SECOND._replace(**what), *BASE[2:]]

    frame = FIRST.bytes
    for name, entries, number, right in (
            ("the greatest reading", first(reading=2 ** 64 - 1), 0, ("Late",)),
            ("a reading that is late for the fast chain", first(reading=1_270_000), 0, ("Kept", 2)),
            ("a reading before there is a bound", first(reading=969_999), 0, ("Future", None)),
            ("a reading in interval 0", first(reading=1_069_999), 0, ("Future", 0)),
            ("a reading of the second packet before its interval", second(reading=1_269_999), 1, ("Future", 2)),
            ("another stream", first(bytes=frame[:13] + b"\xa6" + frame[14:]), 0, ("Foreign", 166)),
            ("another byte of the stream", first(bytes=frame[:6] + b"\x80" + frame[7:]), 0, ("Foreign", 2 ** 63 + 167)),
            ("another version", first(bytes=frame[:4] + b"\3" + frame[5:]), 0, ("Malformed",)),
            ("an interval beyond the last", first(bytes=frame[:17] + b"\x09" + frame[18:]), 0, ("Misfit",)),
            ("a datagram that is cut", first(bytes=frame[:-1]), 0, ("Malformed",)),
            ("an empty datagram", second(bytes=b""), 1, ("Malformed",)),
            ("another payload", first(bytes=altered(frame, 22)), 3, ("Over",)),
            ("another number", first(bytes=altered(frame, 19)), 3, ("Over",)),
            ("another tag of the fast chain", first(bytes=altered(frame, FIRST_TAG)), 3, ("Over",)),
            ("another key", second(bytes=altered(SECOND.bytes, KEY)), 1, ("BadKey", 0)),
            ("no first packet", BASE[1:], 2, ("Over",)),
            ("no second packet", [FIRST, END, GIVEN, OVER], 2, ("Over",)),
            ("the second packet first", [SECOND, FIRST, END, GIVEN, OVER], 1, ("Kept", 2)),
            ("the first packet twice", [FIRST, FIRST, SECOND, END, OVER, GIVEN], 4, ("Given", 0, 1, 0, 0, b"hi")),
            ("no end", [FIRST, SECOND, GIVEN, OVER], 3, ("Empty",)),
            ("a take before the key", [FIRST, GIVEN, SECOND, END, OVER], 1, ("Empty",)),
            ("a take too many", [*BASE[:4], GIVEN, OVER], 4, ("Over",)),
            ("the packet once more behind the end", [*BASE, FIRST], 5, ("Repeat",)),
            ("two wrong answers", [FIRST, SECOND._replace(verdict=("Keys",)), END, OVER, OVER], 1, ("Kept", 3))):
        yield audits(name, entries, 8, refuted(number, right))
    for name, entries in (
            ("the last reading that is safe", first(reading=1_269_999)),
            ("the first reading in the interval", first(reading=1_070_000)),
            ("another tag of the slow chain", first(bytes=altered(frame, SECOND_TAG))),
            ("takes between", [FIRST, Taken(0, ("Empty",)), SECOND, GIVEN, Taken(0, ("Empty",)), END, OVER, OVER]),
            ("the end before all", [END, OVER, FIRST, OVER, SECOND, GIVEN, OVER]),
            ("another thread takes", [*BASE[:3], GIVEN._replace(releaser=255), OVER._replace(releaser=31)])):
        yield legal(name, entries)


def of_words():
    """The same trace under other words than it was made with."""
    for name, line, status, printed, files in (
            ("a lag that is too large for the fast chain", "audit setup 220000 16 trace", 8, refuted(0, ("Kept", 2)), {}),
            ("the largest lag of this trace", "audit setup 149999 16 trace", 0, b"legal 5\n", {}),
            ("the smallest lag of this trace", "audit setup -50000 16 trace", 0, b"legal 5\n", {}),
            ("a lag that is too small", "audit setup -50001 16 trace", 8, refuted(0, ("Future", 0)), {}),
            ("the greatest lag", "audit setup 9223372036854775807 16 trace", 8, refuted(0, ("Late",)), {}),
            ("the least lag", "audit setup -9223372036854775808 16 trace", 8, refuted(0, ("Future", None)), {}),
            ("a single place", "audit setup 30000 1 trace", 8, refuted(1, ("Full",)), {}),
            ("two places", "audit setup 30000 2 trace", 0, b"legal 5\n", {}),
            ("a quota of one", "audit setup 30000 2/1 trace", 0, b"legal 5\n", {}),
            ("as many places as there may be", "audit setup 30000 65536/65536 trace", 0, b"legal 5\n", {}),
            ("a setup of one chain", AUDIT, 8, refuted(0, ("Misfit",)), {"setup": SETUP_OF_ONE}),
            ("a setup of version 2", AUDIT, 8, refuted(0, ("Misfit",)), {"setup": SETUP_2})):
        yield audits(name, BASE, status, printed, line=line, **files)


EMPTY, DONE = Taken(0, ("Empty",)), Taken(0, ("Over",))


def of_ingests():
    """Traces of several ingests."""
    ends = [Ended(it) for it in range(32)]
    yield legal("ends of 32 ingests", [*ends[:31], EMPTY, ends[31], DONE], 32)
    yield audits("an end too few of 32", [*ends[:31], DONE], 8, refuted(31, ("Empty",)), 32)
    yield audits("all ends of 32", [*ends, EMPTY], 8, refuted(32, ("Over",)), 32)
    yield legal("ends in another order, and twice", [Ended(1), Ended(1), EMPTY, Ended(2), EMPTY, Ended(0), Ended(2), DONE], 3)
    yield legal("ends of ingests that there aren't", [Ended(1), EMPTY, Ended(255), EMPTY, Ended(0), DONE])
    yield audits("an end of an ingest that there isn't", [Ended(1), DONE], 8, refuted(1, ("Empty",)))
    yield legal("arrivals of ingests that there aren't, and behind ends",
                [Ended(0), FIRST._replace(ingest=255), SECOND._replace(ingest=7), GIVEN, DONE])
    last = SECOND._replace(ingest=31, verdict=("Late",))
    yield audits("a wrong verdict of the last ingest", [FIRST, last], 8, refuted(1, ("Kept", 3)), 32)


# Two entries with right answers, behind which others are refused, and the same with a wrong one.
BEFORE, WRONG = [FIRST, EMPTY], [FIRST, DONE]
MISSED = refuted(1, ("Empty",))
LONG = lambda length: b"\1\0" + bytes(8) + struct.pack(">H", length)
REPLIED = lambda length: b"\2\0\2" + bytes(15) + struct.pack(">H", length)
DATAGRAM = lambda size: LONG(size) + bytes(size)
# What stands behind entries, and why it is none.
BROKEN = {
    "BadKind": [b"\0", b"\4", b"T", b"\xff", b"\0" + entry_text(EMPTY), b"\4" + LONG(2049)[1:]],
    "TooLong": [LONG(2049), LONG(65_535), LONG(2304), DATAGRAM(2049) + b"\1", LONG(2049) + bytes(2048),
                b"\1\xff" + LONG(2049)[2:], REPLIED(1201), REPLIED(65_535), REPLIED(2048), REPLIED(1201) + bytes(1201)],
    "BadCode": [DATAGRAM(0) + b"\0", DATAGRAM(0) + b"\x0b", DATAGRAM(3) + b"\xff", DATAGRAM(2048) + b"\0", DATAGRAM(0) + b"\4\2",
                DATAGRAM(0) + b"\4\xff" + bytes(8), b"\2\0\3", b"\2\0\xff", b"\2\xff\3" + REPLIED(1201)[3:]],
    # (the bytes that would be wrong aren't there)
    "Truncated": [LONG(0xff00)[:-1], LONG(2049)[:-1], LONG(2048), DATAGRAM(1), DATAGRAM(2048)[:-1], DATAGRAM(2048),
                  DATAGRAM(0) + b"\4", REPLIED(1201)[:-1], REPLIED(1200) + bytes(1199), b"\2", b"\2\xff", b"\3"],
}


def refused_behind(name, behind, kind):
    """Runs of audit and show over traces, and of show over tails, with these bytes behind entries; and of audit where an answer
    before them is wrong."""
    files, lines = {}, []
    for number, text in enumerate(behind):
        one = {f"trace{number}": trace_text(BEFORE) + text, f"tail{number}": tail_text(998, BEFORE) + text,
               f"wrong{number}": trace_text(WRONG) + text, f"alone{number}": trace_text([]) + text}
        at = refused(f"trace {len(trace_text(BEFORE))} {kind}")
        lines += [(f"audit setup 30000 16 trace{number}", 3, at), (f"show trace{number}", 3, shown(BEFORE) + at),
                  (f"show tail{number}", 3, shown(BEFORE, 998) + refused(f"trace {len(tail_text(0, BEFORE))} {kind}")),
                  (f"audit setup 30000 16 wrong{number}", 8, MISSED), (f"show wrong{number}", 3, shown(WRONG) + at),
                  (f"audit setup 30000 16 alone{number}", 3, refused(f"trace 6 {kind}"))]
        files.update(one)
    return f"audit, show: {name}", lines, {}, files


def of_cuts():
    """Runs over entries of each kind that are cut behind each of their bytes."""
    verdicts = {"Foreign": (166,), "Future": (3,), "BadKey": (0,), "Kept": (3,)}
    entries = {f"an arrival that is {name}": Arrival(0, 1_150_000, b"abc", (name, *verdicts.get(name, ()))) for name in VERDICTS}
    entries |= {"a packet": GIVEN, "an empty take": EMPTY, "a last take": DONE, "an end": END}
    for name, entry in entries.items():
        text = entry_text(entry)
        # (of arrivals all but the verdicts are the same)
        first = text.index(b"abc") + 3 if name.startswith("an arrival") and not name.endswith("Kept") else 1
        yield refused_behind(f"{name}, cut behind each byte", [text[:size] for size in range(first, len(text))], "Truncated")
    # An answer that is wrong, within an entry that is cut.
    texts = [entry_text(it)[:-1] for it in (FIRST._replace(verdict=("Foreign", 1)), FIRST._replace(verdict=("BadKey", 1)), GIVEN)]
    yield refused_behind("a wrong answer, cut", texts, "Truncated")


def of_heads():
    """Runs over heads that are none."""
    heads = [trace_text([])[:size] for size in range(6)] + [
        b"TTRC\1\0", b"TTRC\1\x21", b"TTRC\1\xff", b"TTRC\0\1", b"TTRC\2\1", b"TTRL\1\1", b"XTRC\1\1", b"TTAL\1" + bytes(8),
        b"TCAP\1\1"]
    files = {f"head{number}": head + (entry_text(EMPTY) if len(head) > 5 else b"") for number, head in enumerate(heads)}
    lines = [(f"audit setup 30000 16 {it}", 3, refused("trace 0 BadHead")) for it in files]
    yield "audit: other heads", lines, {}, files
    files = {f"of{ingests}": trace_text(BASE[:2], ingests) for ingests in range(1, 33)}
    lines = [(f"audit setup 30000 16 {it}", 0, b"legal 2\n") for it in files]
    yield "audit: traces of each number of ingests", lines, {}, files


AUDITS = [
    *(it for it in STORED if it[1].startswith("audit")),
    *of_events(), *of_words(), *of_ingests(),
    ("audit: SETUP in the place of TRACE", "audit setup 30000 16 setup", 3, refused("trace 0 BadHead"), {}, {}),
    ("audit: CAPTURE in the place of TRACE", "audit setup 30000 16 capture", 3, refused("trace 0 BadHead"), {}, {}),
    ("audit: SETUP that is missing", "audit nothing 30000 16 capture", 7, OPEN, {}, {}),
    ("audit: TRACE that is missing", "audit setup 30000 16 nothing", 7, OPEN, {}, {}),
    ("audit: refused SETUP, and TRACE that is missing", "audit setup 30000 16 nothing", 2, refused("setup 7 DelaysNotRising"), {},
     {"setup": FALLING}),
    ("audit: SETUP and TRACE exchanged", "audit trace 30000 16 setup", 2, refused("setup 1 BadLine"), {},
     {"trace": trace_text(BASE)}),
]
SEQUENCES_OF_AUDITS = [
    *(it for one in stored_legal() for it in told_otherwise(*one)),
    *of_histories(), *of_heads(), *of_cuts(),
    *(refused_behind(f"{kind}", behind, kind) for kind, behind in BROKEN.items()),
]
