"""What the trials of `follow` share: a run of it, and what is wrong with what it printed, counted and wrote."""
import itertools
import re
import subprocess

from program import PACE, compared
import running
from model.epochs import MARK
from model.records import follows_in
from model.verdicts import COUNTS
from running import link, read, write

LAG, CAPACITY = 0, 64
OTHERS = ["epoch", "open", "early", "unqueued", "dropped"]
NUMBER = "(0|[1-9][0-9]*)"
NAMES = [*COUNTS, *(f"chain{chain}" for chain in range(8)), "held", "failedsinks", *OTHERS]
LINE = re.compile(" ".join(f"{name}={NUMBER}" for name in ("(?:time|end)", *NAMES)))


def hands_over(payload):
    """Whether a payload hands over to a stream."""
    return payload.startswith(MARK)


class Run(running.Run):
    """A run of `follow` under a setup, which listens at a port."""

    def __init__(self, program, folder, setup, port, sinks=1, quiets=15, capacity=CAPACITY):
        write(f"{folder}/setup", setup)
        self.names = [f"sink{number}" for number in range(sinks)]
        words = ["follow", "setup", LAG, capacity, link(port, quiets * PACE.times), ",".join(self.names), "status", 1]
        super().__init__(folder, [program, *map(str, words)], [port], stderr=subprocess.PIPE)

    def told(self):
        """The status, and what was printed."""
        status, printed, _ = running.told_by(self.ran)
        return status, printed.decode(errors="replace")

    def records(self):
        """The kind, the epoch and the record of all that the sinks hold, by position."""
        held = itertools.chain(*(follows_in(read(f"{self.folder}/{name}")) for name in self.names))
        return sorted(held, key=lambda it: it[2].position)


def console_of(run):
    """The status of a run, and the numbers that it printed, in order."""
    status, printed = run.told()
    return status, [(words[0], int(words[1])) for words in map(str.split, printed.splitlines()) if len(words) == 2]


def wrong_counts(run, counts, records):
    """What is wrong with what the console tells of a run: the names, and each number that the records tell."""
    told, kinds = dict(counts), [kind for kind, _, _ in records]
    said = compared([name for name, _ in counts], ["epochs", *COUNTS, "early", "unqueued", "dropped"])
    said += compared((told.get("given"), told.get("early")), (kinds.count(0), kinds.count(1)))
    said += compared(told.get("arrivals"), sum(told.get(name, 0) for name in COUNTS[1:-1]))
    return said + wrong_lines(run, told)


def wrong_lines(run, told):
    """What is wrong with the lines of counts: their form, numbers that fall, and that the last has the numbers of the console."""
    lines = (read(f"{run.folder}/status") or b"").decode().split("\n")
    found = [LINE.fullmatch(line) for line in lines[:-1]]
    said = [f"no line of counts: {line}" for line, it in zip(lines, found) if not it]
    rows = [[int(number) for number in it.groups()] for it in found if it]
    for one, other in zip(rows, rows[1:]):
        said += [f"{name} falls" for name, before, after in zip(["time", *NAMES], one, other) if after < before]
    if said or not rows:
        return said or ["there is no line"]
    last = dict(zip(["time", *NAMES], rows[-1]))
    said += compared(lines[-2][:4], "end=") + compared(lines[-1], "")
    said += compared({name: last[name] for name in COUNTS}, {name: told.get(name) for name in COUNTS})
    said += compared((last["epoch"] + 1, last["early"], last["unqueued"], last["dropped"]),
                     tuple(told.get(name) for name in ("epochs", "early", "unqueued", "dropped")))
    said += compared(last["open"], min(3, last["epoch"] + 1))
    return said + compared(sum(last[f"chain{chain}"] for chain in range(8)), last["given"])
