"""What the scripts share that run the built program: its files, ports, processes, and streams that it makes."""
import glob
import os
import re
import shutil
import signal
import socket
import subprocess
import sys
import tempfile
import time

from model.files import CAPTURE, SCRIPT, carried_in, file_text
from model.setups import seeds_text

TOP = os.path.dirname(os.path.abspath(__file__))
PROGRAM, DATA = f"{TOP}/crates/tesla/out/tesla", f"{TOP}/crates/tesla/data"
HOST = "127.0.0.1"
# Seconds that a process has.
SECONDS = 180
# The ports that were given to a run.
GIVEN = set()
# What the stored runs read, and what they write.
INPUTS, OUTPUTS = ("setup", "script", "capture", "trace-in"), ("out", "woven", "trace-out")


def read(path):
    """The bytes of a file; None where there is none."""
    if not os.path.exists(path):
        return None
    with open(path, "rb") as file:
        return file.read()


def write(path, data):
    """Makes a file of the bytes."""
    with open(path, "wb") as file:
        file.write(data)


def microseconds():
    """What the system's clock shows."""
    return time.time_ns() // 1000


def wait_until(holds, seconds=10, pause=0.01):
    """Waits until it holds, not longer than these seconds; it is looked at after each pause."""
    limit = time.monotonic() + seconds
    while not holds() and time.monotonic() < limit:
        time.sleep(pause)


# ---- ports

def udp(host=HOST):
    """A socket of UDP."""
    return socket.socket(socket.AF_INET6 if ":" in host else socket.AF_INET, socket.SOCK_DGRAM)


def free_ports(count, host=HOST):
    """Ports of UDP that nothing is bound to, each given once."""
    held, found = [], []
    while len(found) < count:
        held.append(udp(host))
        held[-1].bind((host, 0))
        port = held[-1].getsockname()[1]
        if port not in GIVEN:
            GIVEN.add(port)
            found.append(port)
    for it in held:
        it.close()
    return found


def is_bound(port):
    """Whether something is bound to the port."""
    return any(b":%04X " % port in (read(path) or b"") for path in ("/proc/net/udp", "/proc/net/udp6"))


def link(port, quiets, host=HOST):
    """The name of a link that ends after so many tenths of a second without a datagram."""
    return f"[{host}]:{port}/{quiets}" if ":" in host else f"{host}:{port}/{quiets}"


def post(*ports):
    """The names of posts."""
    return ",".join(f"{HOST}:{port}" for port in ports)


def send(port, *datagrams, pause=0):
    """Sends datagrams to a port, each with so many seconds behind it."""
    with udp() as sender:
        for datagram in datagrams:
            sender.sendto(datagram, (HOST, port))
            time.sleep(pause)


def send_on_time(arrivals, ports, start=0, host=HOST):
    """Sends each datagram to each port when its reading has come, which counts from a start."""
    with udp(host) as sender:
        for reading, datagram in arrivals:
            time.sleep(max(0, (start + reading - microseconds()) / 1e6))
            for port in ports:
                sender.sendto(datagram, (host, port))


# ---- processes

def processes(session):
    """The folders of /proc of the processes of a session, which has the number of its first process."""
    for path in glob.glob("/proc/[0-9]*"):
        try:
            # (the name of the program stands in brackets)
            fields = (read(f"{path}/stat") or b"").rpartition(b")")[2].split()
        except OSError:
            continue
        if len(fields) > 3 and fields[3] == b"%d" % session:
            yield path


def unended(session, seconds):
    """What is told of a session that hasn't ended after these seconds: what each of its threads waits for."""
    lines = [f"it hasn't ended after {seconds} seconds"]
    for path in processes(session):
        try:
            words = read(f"{path}/cmdline").replace(b"\0", b" ").decode(errors="replace")
            waits = [read(f"{it}/wchan").decode() for it in sorted(glob.glob(f"{path}/task/*"))]
            lines.append(f"{words[:200]}: {', '.join(waits)}")
        except (OSError, AttributeError):
            continue
    return "\n".join(lines)


def started(words, **more):
    """A process of these words, which has nothing to read, and of which all that it prints is taken."""
    usual = {"stdin": subprocess.DEVNULL, "stdout": subprocess.PIPE, "stderr": subprocess.STDOUT, "start_new_session": True}
    return subprocess.Popen([*map(str, words)], **{**usual, **more})


def told_by(process, seconds=SECONDS):
    """The status of a process, what it printed, and what it printed as an error where that is taken apart. What hasn't ended after
    these seconds is ended, and has no status."""
    try:
        printed, said = process.communicate(timeout=seconds)
    except subprocess.TimeoutExpired:
        why = unended(process.pid, seconds).encode()
        os.killpg(process.pid, signal.SIGKILL)
        printed, said = process.communicate()
        return (None, printed + why, said) if said is None else (None, printed, said + why)
    return process.returncode, printed, said


def printed_by(words, seconds=120, **more):
    """Runs words: the status, and all that was printed."""
    status, printed, _ = told_by(started(words, **more), seconds)
    return status, printed.decode(errors="replace")


def without_said(printed):
    """What was printed, without the lines that the program tells on standard error."""
    return re.sub(r"^tesla: .*\n", "", printed, flags=re.MULTILINE)


def numbers(printed):
    """The lines of a word and a number."""
    lines = (line.split() for line in printed.splitlines())
    return {words[0]: int(words[1]) for words in lines if len(words) == 2 and words[1].isdigit()}


class Run:
    """A process in a folder, which is there once something is bound to its ports."""

    def __init__(self, folder, words, ports=(), **more):
        self.folder, self.ran = folder, started(words, cwd=folder, **more)
        wait_until(lambda: all(map(is_bound, ports)) or self.has_ended())

    def has_ended(self):
        """Whether it has ended; what it came to stays there."""
        return os.waitid(os.P_PID, self.ran.pid, os.WEXITED | os.WNOWAIT | os.WNOHANG) is not None

    def told(self):
        """The status, and what was printed."""
        status, printed, _ = told_by(self.ran)
        return status, printed.decode(errors="replace")

    def ended(self):
        """The status, and the numbers that were told."""
        status, printed = self.told()
        return status, numbers(printed)


# ---- streams

def seeds(count):
    """The seeds of so many chains."""
    return tuple(bytes([0x11 * (1 + chain)]) * 32 for chain in range(count))


def done(program, folder, *words):
    """Runs a command that has to come to status 0."""
    subprocess.run([program, *map(str, words)], cwd=folder, check=True, stdout=subprocess.DEVNULL, timeout=SECONDS)


def make_stream(program, folder, start, length, last, delays, tag=None, number=0xa7):
    """Makes the setup of a stream by the program, of version 2 where a length of tags is told, and its seeds."""
    write(f"{folder}/secret", seeds_text(seeds(len(delays))))
    os.chmod(f"{folder}/secret", 0o600)
    command, more = ("chain", delays) if tag is None else ("chain2", [tag, *delays])
    done(program, folder, command, "setup", "secret", f"{number:016x}", start, length, last, *more)


def frames_of(program, folder, script):
    """The frames that a stream's sender makes of these records of a script, each with its reading."""
    write(f"{folder}/script", file_text(SCRIPT, script))
    done(program, folder, "send", "setup", "secret", "script", "capture")
    return carried_in(CAPTURE, read(f"{folder}/capture"))


# ---- stored runs

def stored(group):
    """The runs of a folder of tests, each of which has a folder of its own there: words, inputs, and what is expected. An output that
    isn't there is one that isn't made."""
    names = sorted(os.listdir(f"{TOP}/tests/{group}"))
    return [stored_run(group, name) for name in names if os.path.isdir(f"{TOP}/tests/{group}/{name}")]


def stored_run(group, name):
    """The run of this name in a folder of tests: its name, its line, the status, what is printed, its outputs and its inputs."""
    folder = f"{TOP}/tests/{group}/{name}"
    words, status = (read(f"{folder}/{it}").decode().splitlines() for it in ("words", "status"))
    inputs, outputs = ({it: read(f"{folder}/{it}") for it in names if it in words} for names in (INPUTS, OUTPUTS))
    return f"{words[0]}: {name}", " ".join(words), int(status[0]), read(f"{folder}/console"), outputs, inputs


# ---- checks without trials

class Check:
    """Cases that are tried in a folder, the room, and what they came to."""

    def __init__(self, room):
        self.room, self.passed, self.failed = room, 0, 0

    def entered(self, name, faults):
        """Counts a case of that name, and prints what is wrong with it."""
        faults = list(faults)
        self.passed, self.failed = self.passed + (not faults), self.failed + bool(faults)
        print(f"{'WRONG' if faults else 'ok':7} {name}", *faults[:20], sep="\n        ", flush=True)

    def compared(self, name, came, want):
        """Counts a case that has to come to what is wanted."""
        self.entered(name, [] if came == want else [repr(came)[:900], f"and not {want!r}"[:900]])

    def file(self, data, name="given"):
        """The path of a file with these bytes."""
        write(f"{self.room}/{name}", data)
        return f"{self.room}/{name}"


def end(passed, failed):
    """Ends a script with what its cases came to."""
    print(f"{passed} passed, {failed} failed")
    sys.exit(1 if failed else 0)


def checked(doc, cases, kind=Check):
    """Tries all cases in a room of their own, and ends with what they came to."""
    if len(sys.argv) != 1:
        sys.exit(doc)
    with tempfile.TemporaryDirectory() as room:
        check = kind(room)
        cases(check)
    end(check.passed, check.failed)


def lacking(program, package):
    """Ends a check that wants a program which isn't on this machine."""
    if not shutil.which(program):
        print(f"there is no {program}: it is in the Debian package {package}\n0 passed, 1 failed")
        sys.exit(3)
