"""What the scripts share that run live commands: streams of now, and programs beside one another whose processor time is told."""
import os
import threading
import time

from running import Run, read, write

LIMIT = 90


def begin(folder, start):
    """Sets the start of the setup in a folder, which no key depends on."""
    lines = read(f"{folder}/setup").split(b"\n")
    lines[2] = b"start %d" % start
    write(f"{folder}/setup", b"\n".join(lines))


class Program(Run):
    """A program that runs in a folder, 90 seconds at most. It is there once something is bound to its port."""

    def __init__(self, folder, words, port=None):
        self.waited = 0
        self.printed = os.path.join(folder, f"printed{time.monotonic_ns()}")
        with open(self.printed, "wb") as file:
            super().__init__(folder, words, [port] if port else [], stdout=file, start_new_session=False)
        self.limit = threading.Timer(LIMIT, self.ran.kill)
        self.limit.daemon = True
        self.limit.start()

    def scheduled(self):
        """The seconds of processor time that it has taken so far, and for how many it waited for a processor."""
        return [int(word) / 1e9 for word in read(f"/proc/{self.ran.pid}/schedstat").split()[:2]]

    def measured(self):
        """Its status, what it printed, and the seconds of processor time that it took."""
        os.waitid(os.P_PID, self.ran.pid, os.WEXITED | os.WNOWAIT)
        self.waited = self.scheduled()[1]
        _, status, used = os.wait4(self.ran.pid, 0)
        self.ran.returncode = os.waitstatus_to_exitcode(status)
        self.limit.cancel()
        return self.ran.returncode, read(self.printed).decode(errors="replace"), used.ru_utime + used.ru_stime
