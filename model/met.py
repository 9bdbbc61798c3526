"""What cases come to: which verdicts, answers, refusals and ends were met."""
from .epochs import RollTaken
from .histories import Arrival, Taken
from .listed import Listed
from .verdicts import VERDICTS
from . import promises

SETUP_KINDS = "TooLong NoChain TooManyChains BadLine BadNumber LimitPassed BadHex DelaysNotRising IndexPastLast".split()
# Each has to be met in 2,000 cases. No case comes to files near 2^40 bytes (`TooLarge`), nor to 65,536 messages of one interval
# (`IntervalFull`).
WANTED = [
    *(f"verdict {name}" for name in VERDICTS),
    "verdict Future none", "verdict Kept on a part of the chains", "verdict Kept on all chains",
    *(f"reply {name}" for name in ("Given", "Empty", "Over")), "given by chain 0", "given by another chain",
    *(f"early {name}" for name in ("Late", "Repeat", "Full", "Kept")),
    *(f"next {name}" for name in ("Plain", "Old", "EpochsSpent", "BadSetup", "UsedStream", "Opened")),
    "given by the sixteenth epoch",
    *(f"setup {kind}" for kind in SETUP_KINDS),
    *(f"seeds {kind}" for kind in ("TooLong", "WrongCount", "BadLine", "BadHex", "WrongSeed")),
    *(f"capture {kind}" for kind in ("BadHead", "BadKind", "TooLong", "Truncated")),
    *(f"script {kind}" for kind in ("BadHead", "BadKind", "TooLong", "Truncated", "Early", "Over", "Backward", "LongBody")),
    *(f"trace {kind}" for kind in ("BadHead", "BadKind", "TooLong", "BadCode", "Truncated")),
    *(f"refuted {name}" for name in (*VERDICTS, "Given", "Empty", "Over")),
    *(f"{name} 0" for name in ("replay", "trace", "audit", "early", "roll", "send", "weave", "chain", "chain2")),
    *(f"{name} 2" for name in ("replay", "trace", "audit", "early", "roll", "send", "weave")),
    *(f"{name} 3" for name in ("replay", "trace", "audit", "early", "roll", "send", "weave", "chain2")), "audit 8", "send 7",
]


def met_by_verdict(cfg, verdict):
    """What a verdict is counted as."""
    if verdict == ("Future", None):
        return "verdict Future none"
    if verdict[0] == "Kept":
        part = "all" if verdict[1] == 2 ** len(cfg.setup.rows) - 1 else "a part of the"
        return f"verdict Kept on {part} chains"
    return f"verdict {verdict[0]}"


def met_by_entry(cfg, entry):
    """What the answer of an entry is counted as."""
    if isinstance(entry, Arrival):
        return [f"verdict {entry.verdict[0]}", met_by_verdict(cfg, entry.verdict)]
    if isinstance(entry, Taken):
        by = ["given by another chain" if entry.reply[4] else "given by chain 0"] if entry.reply[0] == "Given" else []
        return [f"reply {entry.reply[0]}", *by]
    if isinstance(entry, RollTaken) and entry.next:
        return [f"next {entry.next[0]}", *(["given by the sixteenth epoch"] if len(entry.answers) == 16 else [])]
    return []


def met_by_early(cfg, history):
    """Which verdicts early arrivals have."""
    fronts = []
    while len(history):
        fronts.append(history)
        history = history.before
    return [f"early {front.last.verdict[0]}" for front in fronts
            if isinstance(front.last, Arrival) and promises.is_early(cfg, front.before, front.last)]


def met_by(words, came):
    """All that a run is counted as."""
    met = [f"{words[0]} {came.status}"]
    told = came.printed.decode().split()
    if told[0] == "refused":
        met.append(f"{told[1]} {told[3]}")
    if told[0] == "refuted":
        met.append(f"refuted {told[2]}")
    if words[0] in ("replay", "roll", "audit"):
        for entry in came.history or Listed():
            met += met_by_entry(came.cfg, entry)
    return met + (met_by_early(came.cfg, came.history) if words[0] == "early" and came.history else [])
