"""The cases: files, and the words that are run over them. A case is a function of a seed and of its number."""
import collections

from . import histories, traces
from .captures import Way, records_drawn
from .clock import Times
from .commands import config_of, performed
from .files import CAPTURE, SCRIPT, Discloses, Sends, file_text, outline_of
from .histories import Arrival, Ended, Taken
from .listed import Listed
from .rolls import rolled, rolled_quickly
from .setups import seeds_text, setup_text
from .streams import (Draw, capacity_drawn, damaged, first_interval, lag_drawn, reading_drawn, seeds_altered, setup_altered,
                      stream_drawn)
from .verdicts import VERDICTS

Case = collections.namedtuple("Case", "kind files runs")

PLAYERS = ("replay", "trace", "early", "roll")


def whole_capacity(capacity):
    """The capacity without its quota."""
    return capacity.split("/", maxsplit=1)[0]


def played_words(name, lag, capacity):
    """The words of a command that plays a capture; that of `roll` has no quota."""
    return [name, "setup", str(lag), whole_capacity(capacity) if name == "roll" else capacity, "capture", "out"]


def file_damaged(draw, grammar, text):
    """A capture or a script that was damaged, or of which one length is about the greatest."""
    places = [place for place, record in outline_of(grammar, text)[0] if isinstance(record, grammar.carrying)]
    if draw.chance(0.1):
        return damaged(draw, text[:5]) + text[5:]
    if not places or draw.chance(0.7):
        return damaged(draw, text)
    at = draw.choice(places) + 9
    return text[:at] + draw.choice((grammar.longest, grammar.longest + 1, 65_535)).to_bytes(2, "big") + text[at + 2:]


def capture_case(draw):
    """A capture of one stream, which each command plays; its trace is audited as it is and altered."""
    stream = stream_drawn(draw)
    lag, capacity = lag_drawn(draw, stream.setup.times), capacity_drawn(draw)
    capture = file_text(CAPTURE, records_drawn(draw, Way(draw, stream, lag)))
    files = {"setup": setup_text(stream.setup), "capture": file_damaged(draw, CAPTURE, capture) if draw.chance(0.2) else capture}
    files["legal"] = performed(played_words("trace", lag, capacity), files).outputs["out"]
    files["other"] = trace_altered(draw, files["legal"])
    runs = [played_words(name, lag, capacity) for name in PLAYERS if name != "roll" or draw.chance(0.3)]
    return files, runs + [["audit", "setup", str(lag), capacity, name] for name in ("legal", "other")]


def epochs_case(draw):
    """A capture of several streams; in some there are as many epochs as there may be."""
    quick = draw.chance(0.06)
    stream = stream_drawn(draw, times=Times(1_000_000, 100_000, 8) if quick else None)
    lag = 30_000 if quick else lag_drawn(draw, stream.setup.times)
    capacity = str(draw.choice((2, 4, 16, 4_096) if quick else (1, 2, 4, 16)))
    capture = file_text(CAPTURE, (rolled_quickly if quick else rolled)(draw, stream, lag))
    capture = damaged(draw, capture) if draw.chance(0.15) else capture
    files = {"setup": setup_text(stream.setup), "capture": capture}
    return files, [played_words(name, lag, capacity) for name in ("roll", "trace")]


# ---- traces

def entry_altered(draw, entry):
    """An entry with another answer, or by chance with the same."""
    if isinstance(entry, Arrival):
        name = draw.choice(VERDICTS)
        told = {"Foreign": (draw.choice((0xa7, 2 ** 64 - 1)),), "Future": (draw.choice((None, 0, 3)),),
                "BadKey": (draw.randrange(3),), "Kept": (draw.randrange(256),)}
        same = entry.verdict[0] if draw.chance(0.3) else name
        return Arrival(entry.ingest, entry.reading, entry.bytes, (same, *told.get(same, ())))
    if not isinstance(entry, Taken):
        return Ended(entry.ingest ^ 1)
    if entry.reply[0] != "Given":
        return Taken(entry.releaser, draw.choice((("Empty",), ("Over",), ("Given", 0, 1, 0, 0, b"x"))))
    given = histories.given_by(entry)
    others = (given._replace(position=given.position + 1), given._replace(interval=given.interval ^ 1),
              given._replace(number=given.number ^ 1), given._replace(chain=given.chain ^ 1))
    shorter = given._replace(payload=given.payload[:-1] if given.payload else b"x")
    replies = (("Empty",), ("Over",), ("Given", *draw.choice(others)), ("Given", *shorter))
    return Taken(entry.releaser, draw.choice(replies))


def trace_altered(draw, text):
    """A trace with another answer, with entries left out, doubled or exchanged, or damaged."""
    ingests, entries, fault = traces.trace_outline_of(text)
    if not entries or fault or draw.chance(0.3):
        headed = text[:5] + bytes([draw.choice((0, 1, 2, 32, 33))]) + text[6:]
        return draw.choice((damaged(draw, text), headed, text + draw.choice((b"\3\0", b"\2\0\0", b"\4"))))
    # (an answer that is seldom given is altered as often as another one)
    names = [traces.answer_in(entry)[:1] for entry in entries]
    name = draw.choice(sorted(set(names)))
    at = draw.choice([at for at, other in enumerate(names) if other == name])
    altered = [entry_altered(draw, entries[at])]
    middle = draw.choice((altered, altered, [], [entries[at]] * 2, [Ended(0), entries[at]]))
    whole = traces.trace_text(entries[:at] + middle + entries[at + 1:], ingests)
    return damaged(draw, whole) if draw.chance(0.15) else whole


def traces_case(draw):
    """A trace of several ingests and releasers, legal and altered."""
    stream = stream_drawn(draw)
    lag, capacity, ingests = lag_drawn(draw, stream.setup.times), capacity_drawn(draw), draw.choice((1, 2, 3, 32))
    way, history = Way(draw, stream, lag), Listed()
    base = config_of(stream.setup, lag, capacity)
    cfg = histories.Config(base.setup, base.lag, base.capacity, base.quota, ingests)
    for _ in range(draw.randrange(24)):
        event = draw.pick({"arrival": 6, "take": 3, "end": 1})
        if event == "arrival":
            event = Arrival(draw.randrange(ingests + 1), *way.arrival(), None)
            way.goes_on()
        else:
            event = Taken(draw.randrange(3), None) if event == "take" else Ended(draw.randrange(min(ingests, 3) + 1))
        history = history.having(histories.entry_of(cfg, history, event))
    legal = traces.trace_text(history, ingests)
    files = {"setup": setup_text(stream.setup), "legal": legal, "other": trace_altered(draw, legal)}
    return files, [["audit", "setup", str(lag), capacity, name] for name in ("legal", "other")]


# ---- senders

def script_drawn(draw, stream):
    """A script; some records have readings that its sender refuses."""
    interval, records = first_interval(stream) - draw.choice((0, 0, 1)), []
    wrong = draw.chance(0.4)
    for _ in range(draw.randrange(14)):
        interval += draw.choice((0, 0, 1, 1, 2, -1 if wrong else 0, 9 if wrong else 0))
        reading = reading_drawn(draw, stream.setup.times, 0, max(interval, -1))
        size = draw.choice((1_161, 1_162, 1_200)) if draw.chance(0.06) else draw.randrange(40)
        records.append(Sends(reading, draw.randbytes(size)) if draw.chance(0.8) else Discloses(reading))
    # (otherwise a reading beside that of an interval would mostly be refused)
    return records if wrong else sorted(records, key=lambda record: record.reading)


def script_case(draw):
    """A script, which is woven and sent; what is sent is played."""
    stream = stream_drawn(draw)
    times, delays = stream.setup.times, [str(row.delay) for row in stream.setup.rows]
    script = file_text(SCRIPT, script_drawn(draw, stream))
    script = file_damaged(draw, SCRIPT, script) if draw.chance(0.25) else script
    files = {"setup": setup_text(stream.setup), "secret": seeds_text(stream.seeds), "script": script}
    runs = [["weave", "setup", "script", "out", str(draw.choice((1, 1, 2, 3, 9, 1_000_000)))]]
    if times.last > 1_000:
        return files, runs
    tag = [str(stream.setup.tag_length)] if stream.setup.version == 2 else []
    runs.append([("chain", "chain2")[len(tag)], "out", "secret", f"{stream.setup.stream:016x}", *map(str, times), *tag, *delays])
    woven = performed(runs[0], files).outputs
    files["woven"] = woven.get("out", script)
    runs += [["send", "setup", "secret", name, "out"] for name in ("script", "woven")]
    sent = performed(runs[-1], files).outputs
    files["capture"] = sent["out"]
    lags = (0, 30_000, times.length)
    return files, runs + [played_words(name, draw.choice(lags), capacity_drawn(draw)) for name in ("early", "trace")]


# ---- texts

def texts_case(draw):
    """A setup, seeds or another file that is mostly refused, or that isn't there."""
    stream = stream_drawn(draw)
    while stream.setup.times.last > 1_000:
        stream = stream_drawn(draw)
    files = {"setup": setup_text(stream.setup), "secret": seeds_text(stream.seeds), "capture": file_text(CAPTURE, []),
             "script": file_text(SCRIPT, script_drawn(draw, stream)), "other": traces.trace_text([])}
    kind = draw.pick({"setup": 6, "secret": 4, "missing": 1})
    if kind == "setup":
        files["setup"] = setup_altered(draw, stream.setup)
    elif kind == "secret":
        files["secret"] = seeds_altered(draw, stream.seeds)
    else:
        del files[draw.choice(list(files))]
    delays = [str(1 + chain) for chain in range(len(stream.seeds))]
    # (to send by chains of a million keys would take seconds)
    runs = [] if b"last 1048576" in files.get("setup", b"") else [["send", "setup", "secret", "script", "out"]]
    runs.append(["chain2", "out", "secret", "00000000000000a7", "0", "1000", "5", "16", *delays])
    others = [["weave", "setup", "script", "out", "1"], ["audit", "setup", "0", "1", "other"]]
    runs += draw.sample(others + [played_words(name, 0, "2/1") for name in PLAYERS], 2)
    if "capture" in files and draw.chance(0.3):
        files["capture"] = draw.choice((b"", b"TSCR\1", b"TCAP\2", b"TCAP\1\3", b"TCAP"))
    return files, runs


KINDS = {"capture": (capture_case, 55), "epochs": (epochs_case, 14), "script": (script_case, 14), "texts": (texts_case, 13),
         "traces": (traces_case, 6)}


def case_of(seed, number):
    """The case of that number."""
    draw = Draw(f"{seed} {number}")
    kind = draw.pick({kind: weight for kind, (_, weight) in KINDS.items()})
    return Case(kind, *KINDS[kind][0](draw))
