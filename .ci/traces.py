"""Runs of trace and show, for .ci/texts.

What is expected is made here and spelled by the model; the runs of tests/trace were made by another program. Each case is as in
.ci/texts.
"""
from program import OPEN
from histories import HI, HI_2, HISTORIES, bare
from model.files import Arrives, record_text
from model.histories import Arrival, Ended, Taken
from model.traces import shown, tail_text, trace_outline_of, trace_text
from running import stored
from streams import FALLING, refused

STORED = stored("trace")
TRACE, SHOW = "trace setup 30000 16 capture out", "show trace"
GREATEST = 2 ** 64 - 1
GAP, MANY = (next(it for it in HISTORIES if it.name == name) for name in ("a key behind a gap", "many packets"))


def traced(it):
    """The run of trace over a history."""
    return (f"trace: {it.name}", f"trace setup 30000 {it.capacity} capture out", 0, it.report(), {"out": it.trace()},
            {"setup": it.setup, "capture": it.capture()})


def refused_behind(name, behind, kind, it=GAP):
    """A run of trace over the capture of a history, behind which no record stands: what came before it is written."""
    capture = it.capture()
    return (f"trace: {name}", f"trace setup 30000 {it.capacity} capture out", 3, refused(f"capture {len(capture)} {kind}"),
            {"out": trace_text(it.entries)}, {"capture": capture + behind})


ARRIVAL = record_text(Arrives(1_850_000, HI))
TRACES = [
    *(it for it in STORED if it[1].startswith("trace")),
    *map(traced, HISTORIES),
    refused_behind("a capture that is cut within a reading", ARRIVAL[:5], "Truncated"),
    refused_behind("a capture that is cut within a datagram", ARRIVAL[:-1], "Truncated"),
    refused_behind("a long capture that is cut", ARRIVAL[:-1], "Truncated", MANY),
    refused_behind("a record of another kind", b"\3", "BadKind"),
    refused_behind("a datagram of 2,049 bytes", ARRIVAL[:9] + b"\x08\x01" + bytes(2049), "TooLong"),
    *((f"trace: {name}", TRACE, 3, refused("capture 0 BadHead"), {"out": trace_text([])}, {"capture": capture})
      for name, capture in (("CAPTURE that is a script", b"TSCR\1"), ("CAPTURE that is a trace", trace_text([])),
                            ("CAPTURE that is empty", b""))),
    ("trace: SETUP that is missing", "trace nothing 30000 16 capture out", 7, OPEN, {}, {}),
    ("trace: CAPTURE that is missing", "trace setup 30000 16 nothing out", 7, OPEN, {}, {}),
    ("trace: TRACE in a folder that is missing", "trace setup 30000 16 capture nothing/out", 7, OPEN, {"nothing/out": None}, {}),
    ("trace: refused SETUP, and CAPTURE that is missing", "trace setup 30000 16 nothing out", 2,
     refused("setup 7 DelaysNotRising"), {}, {"setup": FALLING}),
]


def shows(name, data, printed, what=None):
    """A run of show, over a file that may be refused behind what is printed."""
    return (f"show: {name}", SHOW, 3 if what else 0, printed + (refused(f"trace {what}") if what else b""), {}, {"trace": data})


def shown_stored():
    """Runs over the stored traces, of which some are refused."""
    for name, _, _, _, outputs, inputs in STORED:
        data = outputs.get("trace-out") or inputs["trace-in"]
        _, entries, fault = trace_outline_of(data)
        yield shows(name, data, shown(entries), fault and "%d %s" % fault)


# Entries with the least and the greatest numbers, of which most are no receiver's.
LEAST = [Arrival(0, 0, b"", ("Malformed",)), Arrival(0, 0, HI, ("Foreign", 0)), Arrival(0, 0, HI, ("Future", 0)),
         Arrival(0, 0, HI, ("BadKey", 0)), Arrival(0, 0, HI, ("Kept", 0)), Taken(0, ("Given", 0, 0, 0, 0, b"")), Ended(0)]
MOST = [Arrival(255, GREATEST, bytes(2048), ("Foreign", GREATEST)), Arrival(255, GREATEST, HI, ("Future", GREATEST)),
        Arrival(31, 1, HI, ("Future", None)), Arrival(10, 10, HI, ("BadKey", 255)), Arrival(100, 100, HI, ("Kept", 255)),
        Taken(255, ("Given", GREATEST, 2 ** 32 - 1, 65_535, 255, b"x" * 1200)), Taken(255, ("Empty",)), Taken(99, ("Over",)),
        Ended(255)]
ROW, LONG = bytes(17), bytes(16) + b"\1" + bytes(32)
# Data frames of any stream, interval and number, and bytes that are none.
NAMED = [
    HI, HI_2, bare(8, b"", 65_535), HI[:14] + b"\xff" * 6 + HI[20:], HI[:14] + bytes(6) + HI[20:], HI[:6] + bytes(8) + HI[14:],
    HI[:20] + b"\4\xb0" + bytes(1200) + b"\4" + 4 * LONG, HI[:20] + b"\0\0\1" + ROW,
    b"TSLA\2" + HI[5:20] + b"\0\0\x08\x20" + 8 * (bytes(32) + b"\1" + bytes(32)),
]
UNNAMED = [
    b"", HI[:-1], HI + b"\0", HI[:-1] + b"\2", b"TSLB" + HI[4:], b"TSLA\0" + HI[5:], b"TSLA\3" + HI[5:], b"TSLA\2" + HI[5:],
    HI[:5] + b"\2" + HI[6:], HI[:5] + b"\0" + HI[6:], HI[:20] + b"\4\xb1" + bytes(1201) + b"\1" + ROW, HI[:20] + b"\0\0\0",
    HI[:20] + b"\0\0\5" + 5 * ROW, HI[:22], HI[:21], HI[:13], HI_2[:25] + b"\x09" + HI_2[26:-2],
    HI_2[:25] + b"\x21" + 2 * bytes(34),
    b"TSLA\2" + HI[5:20] + b"\0\0\x09\x0a" + 9 * bytes(11), HI_2[:25], b"TSLA\1\2" + HI[6:14] + b"\1\0" + bytes(36),
]
ALL_NAMED = [Arrival(0, number, it, ("Late",)) for number, it in enumerate(NAMED + UNNAMED)]
TAIL, ENDS = GAP.whole()[-2:], b"\3\0\3\1"


def of_heads():
    """Runs over all fronts of a head, and over other heads."""
    bad = refused("trace 0 BadHead")
    for name, head in (("a trace", trace_text([])), ("a tail", tail_text(7, []))):
        fronts = {f"front{size}": head[:size] for size in range(len(head))}
        yield f"show: {name} that is cut in its head", [(f"show {it}", 3, bad) for it in fronts], {}, fronts
    heads = [b"TTRC\1\0", b"TTRC\1\x21", b"TTRC\1\xff", b"TTRC\0\1", b"TTRC\2\1", b"TTAL\2" + bytes(8), b"TTAL\0" + bytes(8),
             b"TTAX\1" + bytes(8), b"TTRL\1" + bytes(8), b"TTAC\1\1", b"TCAP\1", b"TSCR\1", b"ttrc\1\1"]
    files = {f"head{number}": head + ENDS for number, head in enumerate(heads)}
    yield "show: other heads", [(f"show {it}", 3, bad) for it in files], {}, files
    files = {f"of{ingests}": trace_text(TAIL, ingests) for ingests in range(1, 33)}
    yield "show: traces of each number of ingests", [(f"show {it}", 0, shown(TAIL)) for it in files], {}, files


SHOWS = [
    *shown_stored(),
    *(shows(it.name, it.trace(), shown(it.whole())) for it in HISTORIES),
    shows("the least numbers", trace_text(LEAST), shown(LEAST)),
    shows("the greatest numbers", trace_text(MOST, 32), shown(MOST)),
    shows("the least numbers of a tail", tail_text(0, LEAST), shown(LEAST)),
    shows("the names of frames", trace_text(ALL_NAMED), shown(ALL_NAMED)),
    *(shows(f"a tail behind {first} entries", tail_text(first, TAIL), shown(TAIL, first))
      for first in (0, 1, 7, 10, 2 ** 32, 2 ** 63, GREATEST - 1, GREATEST)),
    shows("a tail behind as many entries as its head can tell", tail_text(GREATEST, GAP.whole()), shown(GAP.whole(), GREATEST)),
    shows("a long tail", tail_text(GREATEST - 600, MANY.whole()), shown(MANY.whole(), GREATEST - 600)),
    shows("a tail without entries", tail_text(7, []), b""),
    ("show: a file that is missing", "show nothing", 7, OPEN, {}, {}),
    ("show: SETUP", "show setup", 3, refused("trace 0 BadHead"), {}, {}),
]
SEQUENCES_OF_TRACES = [
    *of_heads(),
    ("a trace that is audited and shown", [
        (TRACE, 0, GAP.report()),
        ("audit setup 30000 16 out", 0, b"legal %d\n" % len(GAP.whole())),
        ("show out", 0, shown(GAP.whole())),
    ], {"out": GAP.trace()}, {"capture": GAP.capture()}),
]
