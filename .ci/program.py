"""Trials of a built program, for the checks of this folder that run one.

A trial is mostly a run in a folder of its own with copies of some files. After it the status, what was printed and what the
files hold are compared, and every file has to be as it was where nothing else is said.

Some trials run in real time, on a machine that may stand still for a while, as a virtual one does whose host is busy. What such a
trial says that follows from that alone, as a frame that came late or not at all, is a judgement by time (`Late`). A trial that says
nothing worse is made again, three times at most, and what it said is printed all the same. A wrong byte, count, status or line
fails at once, whatever the machine does.
"""
import os
import re
import shutil
import subprocess
import sys
import tempfile
import threading
import time
import traceback

HERE = os.path.dirname(os.path.abspath(__file__))
# (what imports this first finds the modules at the top of the repository)
sys.path.insert(0, os.path.dirname(HERE))

from running import (  # noqa: E402
    DATA as FOLDER, end, is_bound, make_stream, microseconds, processes, read, started, told_by, write)

# A line on standard error, and the statuses of runs in which something failed or whose words are none of a form.
LINE = re.compile(r"tesla: (?:[a-z0-9]+|--help|--version)?.*")
FAILED = (1, 4, 5, 7, 8)
# What lines on standard error say that belong to a run of any status.
ADVICE = ("may be read by others", "are equal", "is all zeros", " ends in ")
# Seconds that a machine stands still for where it is told, and how often a trial is made at most.
STILL, TRIES = 0.1, 3
# The seconds that were waited for a calm machine.
WAITED = []
DATA = {name: read(f"{FOLDER}/{name}") for name in ("setup", "secret", "script", "capture")}
USAGE = b"""\
usage: replay SETUP LAG CAPACITY CAPTURE OUT
usage: chain SETUP-OUT SECRET STREAM START INTERVAL LAST DELAY [DELAY] [DELAY] [DELAY]
usage: chain2 SETUP-OUT SECRET STREAM START INTERVAL LAST TAG DELAY [DELAY] [DELAY] [DELAY] [DELAY] [DELAY] [DELAY] [DELAY]
usage: send SETUP SECRET SCRIPT CAPTURE
usage: lag ASK REPLY KEY DRIFT
usage: stress SEED COUNT
usage: roll SETUP LAG CAPACITY CAPTURE OUT
usage: weave SETUP SCRIPT SCRIPT-OUT GAP
usage: early SETUP LAG CAPACITY CAPTURE OUT
usage: trace SETUP LAG CAPACITY CAPTURE TRACE
usage: audit SETUP LAG CAPACITY TRACE
"""
TOOLS = b"""\
usage: ask READING ASK-OUT
usage: reply ASK KEY READING REPLY-OUT
usage: show TRACE
usage: seeds COUNT SECRET-OUT
usage: info SETUP [RATE]
"""
LIVE = b"usage: receive SETUP LAG CAPACITY LINKS SINKS\nusage: relay CAPACITY LINK POSTS\nusage: play CAPTURE POSTS\n"
LIVE_TOOLS = b"""\
usage: capture LINK CAPTURE
usage: feed SETUPS SECRETS LINK POSTS
usage: feed SETUPS SECRETS LINK POSTS STATUS EVERY
usage: watch SETUP LAG CAPACITY LINKS SINKS STATUS EVERY
usage: watch-relay CAPACITY LINK POSTS STATUS EVERY
usage: follow SETUP LAG CAPACITY LINKS SINKS STATUS EVERY
"""
RECORDED = b"usage: record SETUP LAG CAPACITY LINKS SINKS KEEP TAIL\n"
# What a feed tells to which nothing comes, of a stream that has just ended: the last keys are sent, once.
FED = b"messages 0\ndisclosures 1\ntoolong 0\nearly 0\nover 0\nbackward 0\nfull 0\nunread 0\n"
OPEN, READ, WRITE = b"open fault\n", b"read fault\n", b"write fault\n"

# An exchange of times, and the key that both sides share. Another program made the reply.
DATA["ask"] = bytes.fromhex("5441534b01 00000000004c4b40")
DATA["key"] = b"33" * 32 + b"\n"
REPLY = bytes.fromhex("5452455001 00000000004c4b40 00000000004c9960"
                      "3f93d92142b11498f9b6bb8b6ad12bcba4fb97494e2e358b312629d145990fe6")


def are_listening():
    """Whether all live commands of this session are bound to the ports of their links, and have their sockets."""
    commands = [(read(f"{path}/cmdline") or b"").split(b"\0") for path in processes(os.getsid(0))]
    if any(os.path.basename(it) == b"tesla-join" for words in commands for it in words[:2]):
        return False
    links = [word for words in commands if os.path.basename(words[0]) == b"tesla" for word in words[2:]]
    return all(is_bound(int(port)) for word in links for port in re.findall(rb"(?<!fd):([0-9]+)/[0-9]+", word))


# What stands in for `sleep` where documents let a program begin to listen: on a slow machine that may take longer.
SLEEP = f"""#!{sys.executable}
import sys, time
sys.path.insert(0, {HERE!r})
from program import are_listening
from running import wait_until
time.sleep(float(sys.argv[1]))
wait_until(are_listening, 20, 0.05)
"""


def write_tool(folder, name, text):
    """Writes a program of a few lines."""
    with open(f"{folder}/{name}", "w", encoding="utf-8") as file:
        file.write(text)
    os.chmod(f"{folder}/{name}", 0o755)


class Late(str):
    """What a trial says that is wrong by time alone."""


class Pace:
    """How slowly the trials go that send in real time. A trial that is made again goes slower."""

    def __init__(self):
        self.go(1)

    def go(self, times):
        """Goes so many times slower than at first. A datagram may come an interval late, half a second at first."""
        self.times = times
        # Microseconds of an interval of a stream, and of one of a feed.
        self.interval, self.fed_interval = 500_000 * times, 250_000 * times
        # Seconds of a flood, and those in which what came is surely written.
        self.flood, self.pause = 4.5 * times, 0.5 * times


PACE = Pace()


def paced(trial, trials):
    """A trial, in a folder of its own, that goes slower when it is made again."""
    paces = iter((1, 4, 12))

    def make_trial():
        PACE.go(next(paces))
        return trial(trials.program, tempfile.mkdtemp(dir=trials.room))
    return make_trial


def compared(came, want):
    """What is wrong, where it isn't what is wanted."""
    return [] if came == want else [f"{came!r}, and not {want!r}"]


def in_time(came, want):
    """What is wrong by time, where it isn't what is wanted."""
    return [Late(it) for it in compared(came, want)]


def in_order(came, sent):
    """What is wrong with what came of what was sent: something else, something twice, or something before an earlier one. That
    all came is a judgement by time."""
    rest = iter(sent)
    said = [] if all(it in rest for it in came) else [f"{came}, of {sent}"]
    return said + in_time(len(came), len(sent))


def faults_of(trial):
    """What a trial says that is wrong. One that breaks off says where."""
    try:
        return trial()
    except PermissionError:
        raise
    except Exception:
        return traceback.format_exc().splitlines()


def stand():
    """For each hundredth of a second, for how many seconds the machine stood still instead."""
    while True:
        before = time.monotonic()
        time.sleep(0.01)
        yield max(0, time.monotonic() - before - 0.01)


def calm():
    """Waits until the machine hasn't stood still for three seconds; not longer than three minutes, and ten in all."""
    since = begun = time.monotonic()
    limit = begun + min(180, 600 - sum(WAITED))
    for seconds in stand():
        now = time.monotonic()
        since = since if seconds < STILL else now
        if since + 3 < now or limit < now:
            break
    WAITED.append(now - begun)


def watch(stood):
    """Enters how long the machine stands still each time."""
    for seconds in stand():
        if seconds >= STILL:
            stood.append(seconds)


def just_ended(program, delays=(2, 5), tag=None):
    """A setup of a stream that has ended a moment ago: a feed of it sends its last keys, once. Its last interval is the eighth, and
    all keys are due eight later."""
    with tempfile.TemporaryDirectory() as folder:
        make_stream(program, folder, microseconds() - 20 * 200_000, 200_000, 8, delays, tag)
        return read(f"{folder}/setup")


class Trials:
    """The trials of a program, of which a copy lies in the room, and what they came to."""

    def __init__(self, program, room):
        self.room = room
        self.program = shutil.copy(program, f"{room}/tesla")
        os.chmod(self.program, 0o755)
        self.counts = {"ok": 0, "WRONG": 0, "skipped": 0, "again": 0}

    def faults(self, folder, files, runs, held, env, user):
        """Makes the runs, one after the other, each of words with a status and what is printed, and says what is wrong."""
        for name, data in files.items():
            write(f"{folder}/{name}", data)
        for path in (folder, *(f"{folder}/{name}" for name in files)) if user else ():
            os.chown(path, user["user"], user["group"])
        found = []
        for words, status, printed in runs:
            came = told_by(started(words, cwd=folder, env=env, stderr=subprocess.PIPE, **user))
            by = f" by {' '.join(words[1:])}" if len(runs) > 1 else ""
            found += zip((f"the status{by}", f"printed{by}"), came, (status, printed))
            found += [(f"on standard error{by}", line, "another line") for line in misplaced(status, came[2])]
        found += [(name, read(f"{folder}/{name}"), data) for name, data in {**files, **held}.items()]
        return [f"{what} {shown(one)}, and not {shown(other)}" for what, one, other in found if one != other]

    def tried(self, name, files, runs, held, env, **user):
        """Makes a trial of runs, as `made`."""
        try:
            self.made(name, lambda: self.faults(tempfile.mkdtemp(dir=self.room), files, runs, held, env, user))
        except PermissionError as error:
            self.entered(name, "skipped", [f"permissions don't bind here: {error}"])

    def made(self, name, trial):
        """Makes a trial of that name, which says what is wrong; again where that is by time alone. Prints what it came to."""
        for left in reversed(range(TRIES)):
            said = faults_of(trial)
            if not said or not left or not all(isinstance(it, Late) for it in said):
                break
            self.entered(name, "again", said)
            calm()
        self.entered(name, "WRONG" if said else "ok", said)

    def entered(self, name, kind, said):
        """Counts a trial of that name, and prints what it came to."""
        self.counts[kind] += 1
        print(f"{kind:7} {name}", *said, sep="\n        ", flush=True)


def misplaced(status, said):
    """The lines on standard error that don't belong to a run of this status: all of another form, and of a run in which nothing
    failed all but advice on a secret file which others may read, or on keys that give no safety. A run in which something failed
    tells it."""
    lines = said.decode(errors="replace").splitlines()
    wrong = [line for line in lines if not LINE.fullmatch(line)]
    if status not in FAILED:
        return wrong + [line for line in lines if not any(it in line for it in ADVICE)]
    return wrong


def shown(it):
    """A status, or bytes, of which not too many are told."""
    return repr(it) if not isinstance(it, bytes) or len(it) < 2000 else f"{len(it)} bytes {it[:200]!r}.."


def main(doc, make):
    """Makes trials of the program that the words of the system name, and ends with what they came to."""
    if len(sys.argv) != 2 or not os.path.isfile(sys.argv[1]):
        print(doc, file=sys.stderr)
        print("there is no program to try\n0 passed, 1 failed")
        sys.exit(2)
    stood = []
    threading.Thread(target=watch, args=[stood], daemon=True).start()
    with tempfile.TemporaryDirectory() as room:
        os.chmod(room, 0o711)
        trials = Trials(sys.argv[1], room)
        make(trials)
    if stood:
        print(f"the machine stood still {len(stood)} times, for {max(stood):.1f} seconds at most")
    for kind, text in (("skipped", "skipped"), ("again", "made again")):
        if trials.counts[kind]:
            print(f"{trials.counts[kind]} {text}")
    end(trials.counts["ok"], trials.counts["WRONG"])
