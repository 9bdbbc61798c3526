"""What is played to the library, and what is expected of it: from the built program, but for what it doesn't tell. What a follower
answers to each arrival, and what the head of a frame is, is told by the second model of the definitions, in model/."""
import collections
import pathlib
import re
import subprocess
import tempfile

from model import followed
from model.captures import Way, records_drawn
from model.cases import script_drawn
from model.clock import Times
from model.files import CAPTURE, SCRIPT, Arrives, Discloses, Sends, Takes, file_text, outline_of
from model.frames import DataFrame, frame_of
from model.histories import Arrival, Config, Ended, Taken
from model.promises import promise_of
from model.records import Accepted, early_in, follow_text, follows_in, marked_in
from model.rolls import rolled, rolled_quickly
from model.senders import stream_of
from model.setups import judged, seeds_text, setup_text
from model.streams import Draw, capacity_drawn, lag_drawn, seeds_altered, setup_altered, stream_drawn
from model.verdicts import COUNTS

DATA = pathlib.Path(__file__).resolve().parent.parent.parent / "crates/tesla/data"
SEED = "embedded"
# How many cases are drawn of each kind.
DRAWN = 24
# What a case plays, and what a way has to come to: a function of what it came to that says what is wrong.
Case = collections.namedtuple("Case", "name mode files words env wanted")


class Program:
    """The built program, which tells what is expected."""

    def __init__(self, path):
        self.path = path

    def __call__(self, files, *runs):
        """Runs lines of words over files, one after the other: the status and what was printed of each, and all files behind them."""
        with tempfile.TemporaryDirectory() as folder:
            for name, data in files.items():
                (pathlib.Path(folder) / name).write_bytes(data)
                (pathlib.Path(folder) / name).chmod(0o600)
            told = [subprocess.run([self.path, *run.split()], cwd=folder, stdin=subprocess.DEVNULL, stdout=subprocess.PIPE,
                                   stderr=subprocess.DEVNULL, check=False) for run in runs]
            held = {it.name: it.read_bytes() for it in pathlib.Path(folder).iterdir()}
        return [(it.returncode, it.stdout) for it in told], held


def exactly(status, console, outputs):
    """A way has to come to exactly this."""
    def faults(came):
        said = [] if (came.status, came.console) == (status, console) else [f"{came[:2]}, and not {(status, console)}"]
        return said + [f"{name} is another" for name, data in outputs.items() if came.outputs.get(name, b"") != data]
    return faults


# ---- receivers

def replay_case(program, name, files, lag, limits, wanted=None):
    """A capture is replayed: the console and the records of `replay`, and the lines of `show` of its trace."""
    capacity, _, quota = limits.partition("/")
    runs = [f"{it} setup {lag} {limits} capture {out}" for it, out in (("replay", "out"), ("trace", "traced"))]
    (told, _, (_, shown)), held = program(files, *runs, "show traced")
    status, console, out = wanted or (*told, held.get("out", b""))
    shown = shown if status == 0 else b""
    return Case(name, "replay", files, [str(lag), capacity, quota or capacity], {}, exactly(status, console, {"out": out, "shown": shown}))


def replay_cases(program):
    """The recording of the repository with changes, and drawn ones."""
    setup, capture = (DATA / "setup").read_bytes(), (DATA / "capture").read_bytes()
    altered = capture[:60] + bytes([capture[60] ^ 1]) + capture[61:]
    for lag, limits in (("30000", "16"), ("0", "1"), ("-9000000", "65536/2"), ("9000000", "3/2")):
        for what, held in (("", capture), ("an altered byte, ", altered)):
            yield replay_case(program, f"{what}lag {lag}, {limits}", {"setup": setup, "capture": held}, lag, limits)
    lines = setup.splitlines(keepends=True)
    texts = {f"line {at + 1} is lost": b"".join(lines[:at] + lines[at + 1:]) for at in range(len(lines))}
    for name, text in {**texts, "setup of 4,097 bytes": setup.ljust(4097), "empty setup": b""}.items():
        yield replay_case(program, name, {"setup": text, "capture": capture}, "0", "1")
    for number in range(DRAWN):
        draw = Draw(f"{SEED} replay {number}")
        stream = stream_drawn(draw)
        lag, limits = lag_drawn(draw, stream.setup.times), capacity_drawn(draw)
        held = file_text(CAPTURE, records_drawn(draw, Way(draw, stream, lag)))
        yield replay_case(program, f"drawn recording {number}", {"setup": setup_text(stream.setup), "capture": held}, lag, limits)


# ---- senders

def send_case(program, name, files, env=None, wanted=None):
    """A script is sent: what `send` prints and writes."""
    [told], held = program(files, "send setup secret script out")
    return Case(name, "send", files, [], env or {}, wanted or exactly(*told, {"out": held.get("out", b"")}))


def begun_case(program):
    """A sender that went on to an interval sends what it sends behind a disclosure there."""
    setup, secret = (DATA / "setup").read_bytes(), (DATA / "secret").read_bytes()
    records = [Sends(1_450_000, b"a"), Sends(1_450_001, b"b"), Discloses(1_650_000), Sends(1_850_000, b"c")]
    files = {"setup": setup, "secret": secret, "script": file_text(SCRIPT, [Discloses(1_400_000), *records])}
    [(status, _)], held = program(files, "send setup secret script out")
    first, *others = outline_of(CAPTURE, held["out"])[0][0::2]
    sent = b"TCAP\1" + held["out"][others[0][0]:]
    assert status == 0 and not isinstance(frame_of(first[1].bytes), DataFrame)
    wanted = exactly(0, b"frames %d\n" % len(others), {"out": sent})
    return Case("a sender that goes on to interval 4", "send", {**files, "script": file_text(SCRIPT, records)}, [], {"BEGIN": "4"}, wanted)


def send_texts(setup, secret):
    """Setups and seeds that are refused."""
    other = secret.replace(b"2" * 64, b"3" * 64)
    return {"a wrong seed": (setup, other), "a seed too few": (setup, b"".join(secret.splitlines(keepends=True)[:-1])),
            "a seed too many": (setup, secret + secret.splitlines(keepends=True)[-1]), "seeds of 4,097 bytes": (setup, secret.ljust(4097)),
            "no seeds": (setup, b""), "a seed in upper case": (setup, secret.replace(b"1" * 64, b"A" * 64)),
            "seeds of another version": (setup, secret.replace(b"seeds 1", b"seeds 2")), "no setup": (b"", secret),
            "both refused": (setup[:-1], secret[:-1])}


def send_cases(program):
    """The script of the repository, drawn ones, such as are refused, and texts that are refused."""
    files = {name: (DATA / name).read_bytes() for name in ("setup", "secret", "script")}
    yield send_case(program, "the script of the repository", files)
    yield send_case(program, "the same, with keys made ahead", files, {"AHEAD": "1"})
    yield begun_case(program)
    full = file_text(SCRIPT, [Sends(1_100_000 + at, b"") for at in range(65_537)])
    yield send_case(program, "an interval that is full", {**files, "script": full})
    for name, (setup, secret) in send_texts(files["setup"], files["secret"]).items():
        yield send_case(program, name, {**files, "setup": setup, "secret": secret})
    for number in range(DRAWN):
        draw = Draw(f"{SEED} send {number}")
        stream = stream_drawn(draw)
        while stream.setup.times.last > 1_000:
            stream = stream_drawn(draw)
        script = file_text(SCRIPT, script_drawn(draw, stream))
        held = {"setup": setup_text(stream.setup), "secret": seeds_text(stream.seeds), "script": script}
        yield send_case(program, f"drawn script {number}", held, {"AHEAD": "1"} if number % 2 else {})
        texts = ({**held, "setup": setup_altered(draw, stream.setup)}, {**held, "secret": seeds_altered(draw, stream.seeds)})
        yield from (send_case(program, f"drawn text {number}", it) for it in texts if b"last 1048576" not in it["setup"])


# ---- followers

def follow_case(name, files, lag, capacity, wanted):
    """A capture is followed."""
    return Case(name, "follow", files, [str(lag), str(capacity), str(capacity)], {}, wanted)


def by_model(setup, lag, capacity, records):
    """What the model says of a follower to which these records of a capture come: exactly."""
    cfg = Config(judged(setup), lag, capacity, capacity)
    events = [Arrival(0, *it, None) if isinstance(it, Arrives) else Taken(0, None) for it in records]
    answers, it = followed.answers_of(cfg, events)
    said, shown, more = list(answers), "", [Ended(0)]
    while more:
        answer, it = followed.answered(cfg, it, more.pop())
        said.append(answer)
        more += [Taken(0, None)] if answer != ("Over",) else []
    for answer in answers:
        shown += f"{answer[0]} {answer_told(answer[1])} {answer[2]}\n" if isinstance(answer[0], int) else ""
    counts = [("epochs", len(it.epochs)), *zip(COUNTS, followed.report_over(it)), ("early", it.early), ("unqueued", it.unqueued),
              ("dropped", it.dropped)]
    console = "".join(f"{word} {number}\n" for word, number in counts).encode()
    return exactly(0, console, {"out": followed.records_of(said), "shown": shown.encode()})


def answer_told(verdict):
    """An answer as `show` prints it."""
    return " ".join(["none" if it is None else str(it) for it in verdict])


def by_roll(program, setup, lag, capacity, records):
    """What `roll` says of records of streams of which three are open at most and in which no promise comes; None of others."""
    frames = [frame_of(it.bytes) for it in records if isinstance(it, Arrives)]
    if any(isinstance(it, DataFrame) and promise_of(it.payload) for it in frames):
        return None
    [(status, console)], held = program({"setup": setup, "capture": file_text(CAPTURE, records)}, f"roll setup {lag} {capacity} capture out")
    epochs = int(console.split()[1])
    if status or epochs > followed.MOST_OPEN:
        return None
    out = b"".join(follow_text(0, epoch, it._replace(position=at)) for at, (epoch, it) in enumerate(marked_in(held["out"])))

    def faults(came):
        numbers = dict(line.split() for line in came.console.decode().splitlines())
        said = [] if came.status == 0 and came.outputs.get("out") == out else [f"the records of roll aren't those of {came[:2]}"]
        told = console.decode().splitlines()
        return said + [f"roll prints {told}" for line in told[:1] if numbers.get(line.split()[0]) != line.split()[1]]
    return faults


def by_early(program, files, lag, capacity):
    """What `early` says of a capture in which all that waits is taken behind each arrival: the same messages of either kind, in
    order."""
    [(status, console)], held = program(files, f"early setup {lag} {capacity} capture out")
    records = list(early_in(held["out"]))
    wanted = [[it[:] for it in records if isinstance(it, Accepted)],
              [(it.interval, it.number, it.chain, it.payload) for it in records if not isinstance(it, Accepted)]]

    def faults(came):
        told = list(follows_in(came.outputs.get("out", b"")))
        early = [(it.interval, it.number, it.payload) for kind, _, it in told if kind == 1]
        given = [(it.interval, it.number, it.chain, it.payload) for kind, _, it in told if kind == 0]
        said = [] if (status, came.status) == (0, 0) else ["it isn't done"]
        said += [] if [early, given] == [list(map(tuple, wanted[0])), wanted[1]] else ["the messages aren't those of early"]
        report = console.replace(b"early", b"unqueued 0\nearly", 1).splitlines()
        return said + [f"early prints {line}" for line in report if line not in came.console.splitlines()]
    return faults


def rolls(draw, quick):
    """A setup, a lag, a capacity and the records of a feed of several streams."""
    stream = stream_drawn(draw, times=Times(1_000_000, 100_000, 8) if quick else None)
    lag = 30_000 if quick else lag_drawn(draw, stream.setup.times)
    records = (rolled_quickly if quick else rolled)(draw, stream, lag)
    return setup_text(stream.setup), lag, draw.choice((2, 4, 16, 4_096)), records


def woven_records(program, draw, gap, takes):
    """A setup and the records of a capture of messages each of which promises a later one, with takes behind each arrival."""
    stream = stream_of(1, 0xa7, Times(1_000_000, 100_000, 8), 16, (1, 3), (bytes([7]) * 32, bytes([8]) * 32))
    script = [Sends(1_100_000 + 20_000 * at, draw.randbytes(draw.randrange(30))) for at in range(40)]
    files = {"setup": setup_text(stream.setup), "secret": seeds_text(stream.seeds),
             "script": file_text(SCRIPT, [*script, Discloses(2_300_000)])}
    _, held = program(files, f"weave setup script woven {gap}", "send setup secret woven capture")
    arrivals = [it for _, it in outline_of(CAPTURE, held["capture"])[0] if isinstance(it, Arrives) and draw.chance(0.9)]
    return files["setup"], [it for at, one in enumerate(arrivals) for it in (one, *[Takes()] * takes(at))]


def follow_cases(program):
    """Feeds of one and of several streams, with promises and without."""
    left = DRAWN // 2
    for number in range(10 * DRAWN):
        setup, lag, capacity, records = rolls(Draw(f"{SEED} roll {number}"), False)
        wanted = by_roll(program, setup, lag, capacity, records) if left else None
        if wanted:
            left -= 1
            files = {"setup": setup, "capture": file_text(CAPTURE, records)}
            yield follow_case(f"drawn feed {number}, by roll", files, lag, capacity, wanted)
    assert left == 0
    for number in range(DRAWN // 4):
        setup, records = woven_records(program, Draw(f"{SEED} early {number}"), 6 + 4 * number, lambda at: 45)
        files = {"setup": setup, "capture": file_text(CAPTURE, records)}
        yield follow_case(f"drawn promises {number}, by early", files, 0, 64, by_early(program, files, 0, 64))
        setup, records = woven_records(program, Draw(f"{SEED} few takes {number}"), 12, lambda at: int(at < 14 or at == 25))
        files = {"setup": setup, "capture": file_text(CAPTURE, records)}
        yield follow_case(f"drawn promises {number}, few takes", files, 0, 3, by_model(setup, 0, 3, records))
    yield from modelled_cases()
    equal = (DATA / "setup").read_bytes().replace(b"9ce5072017e83d06da080924aa2251a73ea445e5986eb68ca2d8fb6a3bf70ced",
                                                  b"d37e38b1539f22b758d1e34d417c1032bee6369ad6cd313ca36c4c745fa2a941")
    [told], _ = program({"setup": equal}, "info setup")
    assert told[1] == b"refused setup 7 EqualCommitments\n"
    files = {"setup": equal, "capture": (DATA / "capture").read_bytes()}
    yield follow_case("equal commitments", files, 0, 16, exactly(*told, {}))


def modelled_cases():
    """The same by the model, also with more streams than are open at a time, and with few places for promised messages."""
    for number in range(DRAWN):
        draw = Draw(f"{SEED} follow {number}")
        setup, lag, capacity, records = rolls(draw, number % 4 == 0)
        capture = file_text(CAPTURE, records)
        yield follow_case(f"drawn feed {number}", {"setup": setup, "capture": capture}, lag, capacity, by_model(setup, lag, capacity, records))
        stream = stream_drawn(draw)
        lag, capacity, setup = lag_drawn(draw, stream.setup.times), draw.choice((1, 2, 16)), setup_text(stream.setup)
        records = records_drawn(draw, Way(draw, stream, lag))
        files = {"setup": setup, "capture": file_text(CAPTURE, records)}
        yield follow_case(f"drawn messages {number}", files, lag, capacity, by_model(setup, lag, capacity, records))


# ---- what keeps nothing

def setup_case(program, name, text):
    """A setup is read: the first lines of `info`, with the keys that stand in the text, or its refusal."""
    [(status, console)], _ = program({"setup": text}, "info setup")
    if status == 0:
        keys = re.findall(rb"^chain \d+ \d+ (\w+)$", text, re.MULTILINE)
        told = dict(re.findall(rb"^([a-z]+) (\w+)$", console, re.MULTILINE))
        names = (b"stream", b"version", b"tag", b"interval", b"last", b"start")
        chains = re.findall(rb"^(chain \d+ delay \d+ index \d+) ", console, re.MULTILINE)
        console = b"".join(b"%s %s\n" % (it, told[it]) for it in names) + b"".join(b"%s key %s\n" % it for it in zip(chains, keys))
    return Case(name, "setup", {"setup": text}, [], {}, exactly(status, console, {}))


def make_case(program, name, secret, words):
    """A setup is made: what `chain` or `chain2` makes of the same words. Words that are no form have a number that is outside its limits."""
    version, stream, start, interval, last, tag, delays = words
    front = f"chain2 made secret {stream} {start} {interval} {last} {tag}" if version == "2" else f"chain made secret {stream} {start} {interval} {last}"
    [(status, console)], held = program({"secret": secret}, f"{front} {delays.replace(',', ' ')}")
    if status == 1:
        status, console = 62, b""
    return Case(name, "make", {"secret": secret}, words, {}, exactly(status, console, {"made": held.get("made", b"")}))


def make_cases(program):
    """Setups of drawn parameters, with right and altered seeds, and with each number at its limits and outside."""
    for number in range(DRAWN):
        draw = Draw(f"{SEED} make {number}")
        it, seeds = stream_drawn(draw)
        words = [str(it.version), f"{it.stream:016x}", str(it.times.start), str(it.times.length), str(min(it.times.last, 400)), str(it.tag_length),
                 ",".join(str(row.delay) for row in it.rows)]
        yield make_case(program, f"drawn parameters {number}", seeds_text(seeds), words)
        yield make_case(program, f"drawn parameters {number}, altered seeds", seeds_altered(draw, seeds), words)
    one = seeds_text((bytes([1]) * 32,))
    right = ["2", "00000000000000a7", "1000000", "100000", "9", "16", "2"]
    for place, values in {2: (0, 2 ** 64 - 1), 3: (999, 1_000, 3_600_000_000, 3_600_000_001), 4: (0, 1), 5: (9, 10, 32, 33), 6: (0, 1, 4_096, 4_097)}.items():
        for value in values:
            words = [*right[:place], str(value), *right[place + 1:]]
            yield make_case(program, f"parameters with {value} at place {place}", one, words)
    for version, count in (("1", 4), ("1", 5), ("2", 8), ("2", 9)):
        delays = ",".join(str(k + 1) for k in range(count))
        seeds = seeds_text(tuple(bytes([k + 1]) * 32 for k in range(count)))
        yield make_case(program, f"{count} chains in version {version}", seeds, [version, *right[1:6], delays])
    yield make_case(program, "delays that don't rise", seeds_text((bytes([1]) * 32, bytes([2]) * 32)), [*right[:6], "2,2"])


def head_told(datagram):
    """The line of a datagram, by the model."""
    it = frame_of(datagram)
    if it is None:
        return "none"
    if not isinstance(it, DataFrame):
        return f"disclosure {it.stream:016x} version {it.version} keys {len(it.rows)}"
    keys = sum(row.key is not None for row in it.rows)
    return f"message {it.stream:016x} {it.interval} {it.number} {len(it.payload)} version {it.version} tag {it.tag_length} keys {keys}"


def frames_case(name, arrivals):
    """The heads of datagrams are read."""
    said = "".join(f"{head_told(it.bytes)}\n" for it in arrivals)
    return Case(name, "frames", {"capture": file_text(CAPTURE, arrivals)}, [], {}, exactly(0, said.encode(), {}))


def lag_case(program, name, ask, reply, key, drift):
    """An exchange: what `lag` says of it."""
    files = {"ask": ask, "reply": reply, "key": key.hex().encode() + b"\n"}
    [(_, console)], _ = program(files, f"lag ask reply key {drift}")
    said = re.sub(rb"^lag too large .*\n", b"refused TooLarge\n", re.sub(rb"(OtherAsk) \d+", rb"\1", console))
    return Case(name, "lag", {**files, "key": key}, [str(drift)], {}, exactly(0, said, {}))


def lag_cases(program):
    """Exchanges that the program made, whole and altered."""
    key, wrong = bytes(range(32)), bytes(32)
    text = key.hex().encode() + b"\n"
    for asked, replied, drift in ((5_000_000, 5_020_000, 10_000), (5_020_000, 5_000_000, 0), (0, 2 ** 63 - 1, 0), (0, 2 ** 63 - 1, 1),
                                  (2 ** 64 - 1, 0, 0), (2 ** 63, 0, 0), (0, 0, 2 ** 32 - 1)):
        _, held = program({"key": text}, f"ask {asked} ask", f"reply ask key {replied} reply", f"ask {asked ^ 1} other")
        ask, reply = held["ask"], held["reply"]
        name = f"asked at {asked}, replied at {replied}, drift {drift}"
        yield lag_case(program, name, ask, reply, key, drift)
        yield lag_case(program, f"{name}, another key", ask, reply, wrong, drift)
        yield lag_case(program, f"{name}, another ask", held["other"], reply, key, drift)
        yield lag_case(program, f"{name}, a short ask", ask[:-1], reply, key, drift)
        yield lag_case(program, f"{name}, no ask", reply, reply, key, drift)
        yield lag_case(program, f"{name}, a long reply", ask, reply + b"\0", key, drift)
        yield lag_case(program, f"{name}, no reply", ask, b"", key, drift)
        yield lag_case(program, f"{name}, an altered reply", ask, reply[:20] + bytes([reply[20] ^ 1]) + reply[21:], key, drift)


def pure_cases(program):
    """Setups, frames and exchanges."""
    yield setup_case(program, "the setup of the repository", (DATA / "setup").read_bytes())
    for number in range(DRAWN):
        draw = Draw(f"{SEED} pure {number}")
        stream = stream_drawn(draw)
        yield setup_case(program, f"drawn setup {number}", setup_text(stream.setup))
        yield setup_case(program, f"altered setup {number}", setup_altered(draw, stream.setup))
        way = Way(draw, stream, 0)
        yield frames_case(f"drawn frames {number}", [way.arrival() for _ in range(40)])
    yield from lag_cases(program)


def all_cases(program):
    """All cases."""
    for cases in (replay_cases, send_cases, follow_cases, pure_cases, make_cases):
        yield from cases(program)
