"""What the scripts of this folder share: running a program with its time and memory, and making streams."""
import os
import re
import shutil
import statistics
import struct
import subprocess
import sys
import tempfile

# (what imports this first finds the modules at the top of the repository)
sys.path.insert(0, os.path.join(os.path.dirname(os.path.abspath(__file__)), ".."))

from model.files import CAPTURE, SCRIPT, Sends, capture_text, carried_in, file_text  # noqa: E402
from model.records import records_in  # noqa: E402
from running import PROGRAM as TESLA, TOP, make_stream, read, write  # noqa: E402

RUNS = 3
START, LENGTH = 1_000_000, 100_000
WORK = f"{TOP}/crates/tesla_bench/out/tesla_bench"
# Files lie in memory where they can, so that no disk is measured.
MEMORY = "/dev/shm" if os.path.isdir("/dev/shm") else None


def want(program, package):
    """Ends where a program isn't on this machine, and says of which Debian package it is."""
    if not shutil.which(program):
        sys.exit(f"there is no {program}: it is in the Debian package {package}")


def run(words):
    """Runs the words, and gives seconds of processor time, kilobytes at most, and what was printed."""
    want("/usr/bin/time", "time")
    # (a process that Python starts itself is said to have had Python's memory)
    with tempfile.NamedTemporaryFile("r") as peak:
        timed = ["/usr/bin/time", "-q", "-f", "%M", "-o", peak.name, *words]
        read, write = os.pipe()
        child = os.posix_spawn(timed[0], timed, os.environ, file_actions=[(os.POSIX_SPAWN_DUP2, write, 1)])
        os.close(write)
        with os.fdopen(read) as text:
            told = text.read()
        _, status, used = os.wait4(child, 0)
        if status:
            sys.exit("%s: status %d: %s" % (" ".join(words), os.waitstatus_to_exitcode(status), told.strip()))
        return used.ru_utime + used.ru_stime, int(peak.read()), told


def instructions(words):
    """Runs the words under callgrind, and gives how many instructions it counted: the same for each run."""
    want("valgrind", "valgrind")
    counted = subprocess.run(["valgrind", "--tool=callgrind", "--callgrind-out-file=/dev/null", *words],
                             stdout=subprocess.DEVNULL, stderr=subprocess.PIPE, check=True)
    return int(re.search(rb"Collected : ([0-9]+)", counted.stderr).group(1))


def least(words, runs=RUNS):
    """The least time and the greatest memory of some runs."""
    came = [run(words) for _ in range(runs)]
    return min(it[0] for it in came), max(it[1] for it in came)


def medians(words, rounds=15):
    """The medians of the microseconds that these words take, which take turns."""
    took = [[run(it)[0] * 1e6 for it in words] for _ in range(rounds)]
    return list(map(statistics.median, zip(*took)))


def told_in(doc, most):
    """Whether the words of the system ask for instructions, and the others, of which there are so many at most."""
    words = sys.argv[1:]
    counted = words[:1] == ["--instructions"]
    if len(words) > counted + most:
        sys.exit(doc)
    return counted, words[counted:]


def each(figure, packets):
    """What of a figure is a packet's, as text."""
    return "%.*f" % (2 if figure < 100 * packets else 0, figure / packets)


def reading(interval, part=0.5):
    """A reading within an interval."""
    return START + LENGTH * interval + int(LENGTH * part)


def payload(number, size):
    """The payload of a message, of so many bytes."""
    return struct.pack(">Q", number) + bytes(size - 8)


def sends(payloads, rate, first=1):
    """The messages of these payloads, so many an interval, from the first interval on."""
    when = lambda number: START + LENGTH * (first + number // rate) + LENGTH // rate * (number % rate)
    return [Sends(when(number), text) for number, text in enumerate(payloads)]


def intervals(packets, rate):
    """How many intervals so many packets take."""
    return (packets + rate - 1) // rate


class Stream:
    """A stream in a folder: its setup and seeds, made by `chain`."""

    def __init__(self, tesla, folder, last, delays):
        self.tesla, self.folder = tesla, folder
        make_stream(tesla, folder, START, LENGTH, last, delays)

    def path(self, name):
        """The path of a file of its folder."""
        return os.path.join(self.folder, name)

    def send(self, records):
        """The words that send these records of a script."""
        write(self.path("script"), file_text(SCRIPT, records))
        return [self.tesla, "send", self.path("setup"), self.path("secret"), self.path("script"), self.path("capture")]

    def replay(self, capacity, name="capture"):
        """The words that replay the capture of this name."""
        return [self.tesla, "replay", self.path("setup"), "30000", str(capacity), self.path(name), self.path("out")]

    def arrivals(self):
        """The datagrams of the capture, each with its reading."""
        return carried_in(CAPTURE, read(self.path("capture")))

    def capture(self, arrivals):
        """Writes a capture of these arrivals, with a take behind each."""
        write(self.path("capture"), capture_text(arrivals))

    def released(self):
        """The payloads of what the last replay released."""
        return [it.payload for it in records_in(read(self.path("out")))]
