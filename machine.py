"""What the scripts share that try a built program with what the system answers, on networks and file systems of their own. These need
root."""
import os
import shutil
import subprocess
import tempfile

import running
from running import HOST, make_stream, microseconds, read, wait_until

# Microseconds of an interval of a stream, and the delays of its chains.
INTERVAL, DELAYS = 200_000, (2, 3)


def new_stream(program, folder):
    """Makes the setup of a stream that begins now, and its seeds."""
    make_stream(program, folder, microseconds(), INTERVAL, 400, DELAYS)


def lines_of(folder):
    """The lines of STATUS, each as its numbers by their names."""
    lines = (read(f"{folder}/status") or b"").decode().split("\n")
    return [{name: int(number) for name, number in (word.split("=") for word in line.split(" "))} for line in lines[:-1]]


class Run(running.Run):
    """A run of the program that listens at these ports."""

    def __init__(self, program, folder, words, ports=(), before=(), stop=None, **more):
        env = {**os.environ, **({"TESLA_STOP": stop} if stop else {})}
        super().__init__(folder, [*before, program, *words], ports, stderr=subprocess.PIPE, env=env, **more)
        self.said = []

    def told(self):
        """The status, and what was printed; what was said on standard error is kept."""
        status, printed, said = running.told_by(self.ran)
        self.said = said.decode(errors="replace").splitlines()
        return status, printed.decode(errors="replace")


class Unmade(PermissionError):
    """The machine doesn't let something be made."""


def must(*words):
    """Runs a command of the system that has to come to status 0."""
    ran = subprocess.run(words, stdout=subprocess.PIPE, stderr=subprocess.STDOUT, timeout=60)
    if ran.returncode != 0:
        raise Unmade(f"{' '.join(words)}: {ran.stdout.decode(errors='replace').strip()}")


class Namespaces:
    """Two namespaces of the network, whose interfaces are joined."""

    def __init__(self):
        self.names = [f"tesla-{os.getpid()}-{side}" for side in "ab"]

    def __enter__(self):
        if not shutil.which("ip"):
            raise Unmade("there is no ip: it is in the Debian package iproute2")
        try:
            for name in self.names:
                must("ip", "netns", "add", name)
            one, other = self.names
            must("ip", "link", "add", "wire", "netns", one, "type", "veth", "peer", "name", "wire", "netns", other)
            for at, name in enumerate(self.names, 1):
                must("ip", "-n", name, "addr", "add", f"10.77.0.{at}/24", "dev", "wire")
                for it in ("lo", "wire"):
                    must("ip", "-n", name, "link", "set", it, "up")
        except Unmade:
            self.__exit__()
            raise
        return self

    def __exit__(self, *_):
        for name in self.names:
            subprocess.run(["ip", "netns", "del", name], stderr=subprocess.DEVNULL, timeout=60)

    def run(self, side, program, folder, words, port):
        """A run of the program on one side, once it listens at the port."""
        run = Run(program, folder, words, before=["ip", "netns", "exec", self.names[side]])
        wait_until(lambda: b":%04X " % port in (read(f"/proc/{run.ran.pid}/net/udp") or b"") or run.has_ended())
        return run

    def send(self, side, port, *messages):
        """Sends messages to a port of one side."""
        for message in messages:
            must("ip", "netns", "exec", self.names[side], "bash", "-c", f"printf '{message}' > /dev/udp/{HOST}/{port}")


class Mounts:
    """What is mounted below a folder, and let go at the end."""

    def __init__(self):
        self.at = []

    def __enter__(self):
        return self

    def mount(self, kind, at, *options):
        must("mount", "-t", kind, *options, kind, at)
        self.at.append(at)

    def __exit__(self, *_):
        for at in reversed(self.at):
            subprocess.run(["umount", at], stderr=subprocess.DEVNULL, timeout=60)


def make_all(trials, cases):
    """Makes the trials of these names, each in a folder of its own. One that needs what the machine doesn't let be made is skipped."""
    for name, trial in cases.items():
        try:
            trials.made(name, lambda trial=trial: trial(trials.program, tempfile.mkdtemp(dir=trials.room)))
        except Unmade as why:
            trials.entered(name, "skipped", [f"the machine doesn't let it be made: {why}"])
