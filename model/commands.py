"""What the commands come to that read files and write one.

`performed` answers words over files; it is told words that are a form of one of these commands.
"""
import collections
import functools

from . import epochs, histories, promises, senders, traces
from .clock import Times
from .files import CAPTURE, file_text, outline_of
from .histories import Config, arrivals_in, report_lines
from .listed import Listed
from .setups import LONGEST_TAG, Refused, judged, seeds_judged, setup_text


# The status, what is printed, what each output holds that was opened, and the configuration and the history where there are such.
Came = collections.namedtuple("Came", "status printed outputs cfg history", defaults=(None, None))


class Stop(Exception):
    """What a command comes to before its output is opened: a status and a line."""


def counted(name, number):
    """A line of a name and a number."""
    return f"{name} {number}\n"


def read(files, name):
    """The bytes of a file."""
    if name not in files:
        raise Stop(7, "open fault\n")
    return files[name]


def setup_in(files, name):
    """The setup of a file."""
    try:
        return judged(read(files, name))
    except Refused as refused:
        raise Stop(2, f"refused setup {refused.line} {refused.kind}\n") from None


def seeds_in(files, name, count):
    """The seeds of a file."""
    try:
        return seeds_judged(count, read(files, name))
    except Refused as refused:
        raise Stop(3, f"refused seeds {refused.line} {refused.kind}\n") from None


# (several commands ask for one history)
@functools.lru_cache(maxsize=2)
def config_of(setup, lag, capacity):
    """The configuration of the words, with one ingest."""
    places = [int(word) for word in capacity.split("/")]
    return Config(setup, int(lag), places[0], places[-1])


def came_to(file, fault, lines):
    """The lines of a command that came to its end, or its refused place."""
    return (0, lines) if fault is None else (3, f"refused {file} {fault[0]} {fault[1]}\n")


# ---- commands that play a capture

@functools.lru_cache(maxsize=2)
def history_of(cfg, capture):
    """The one history that a file plays."""
    return histories.history_of(cfg, capture)


def replay(cfg, capture, fault):
    """Release records: of all that is released, or where a place is refused of the takes before it."""
    history = history_of(cfg, capture)
    text = histories.released_text(cfg, arrivals_in(cfg, history)) if fault is None else histories.records_of(0, history)
    return report_lines(history), text, history


def trace(cfg, capture, _):
    """The trace of the history."""
    history = history_of(cfg, capture)
    return report_lines(history), traces.trace_text(history), history


def early(cfg, capture, _):
    """The records of packets that were given, and of messages that were accepted on arrival."""
    history = history_of(cfg, capture)
    lines = report_lines(history) + counted("early", promises.early_count(cfg, history))
    return lines, b"".join(promises.early_records_of(cfg, history)), history


def roll(cfg, capture, _):
    """The records of packets that were given, each behind the number of its epoch."""
    history = epochs.roll_history_of(cfg, capture)
    lines = counted("epochs", epochs.epoch_count(cfg, history)) + counted("given", sum(map(epochs.roll_gives, history)))
    return lines, epochs.roll_records_of(history), history


def plays(play, files, setup, lag, capacity, capture, out):
    """A command that plays a capture under a setup."""
    cfg = config_of(setup_in(files, setup), lag, capacity)
    text = read(files, capture)
    fault = outline_of(CAPTURE, text)[1]
    lines, made, history = play(cfg, text, fault)
    return Came(*came_to("capture", fault, lines), {out: made}, cfg, history)


# ---- the other commands

def audit(files, setup, lag, capacity, trace_name):
    """The first entry of a trace whose answer isn't the right one, with that one."""
    base = config_of(setup_in(files, setup), lag, capacity)
    ingests, entries, fault = traces.trace_outline_of(read(files, trace_name))
    cfg = Config(base.setup, base.lag, base.capacity, base.quota, ingests)
    history = Listed()
    for number, entry in enumerate(entries):
        right = traces.answer_in(histories.entry_of(cfg, history, entry))
        if traces.answer_in(entry) != right:
            return Came(8, f"refuted {number} {traces.answer_line(right)}\n", {}, cfg, history)
        history = history.having(entry)
    return Came(*came_to("trace", fault, counted("legal", len(entries))), {}, cfg, history)


def send(files, setup, secret, script, out):
    """The capture of all frames that a sender makes of a script."""
    parts = setup_in(files, setup)
    stream = senders.Stream(parts, seeds_in(files, secret, len(parts.rows)))
    for chain, row in enumerate(parts.rows):
        if senders.key_of(stream, chain, row.index) != row.key:
            raise Stop(3, f"refused seeds {chain + 2} WrongSeed\n")
    sent, fault = senders.sending(stream, read(files, script))
    return Came(*came_to("script", fault, counted("frames", len(sent) // 2)), {out: file_text(CAPTURE, sent)})


def weave(files, setup, script, out, gap):
    """The script with woven payloads; a script that is refused makes none."""
    parts = setup_in(files, setup)
    text, messages, fault = promises.weaving(parts, int(gap), read(files, script))
    return Came(*came_to("script", fault, counted("messages", messages)), {} if fault else {out: text})


def make_setup(version, files, out, secret, stream, start, interval, last, *numbers):
    """The setup whose commitments are the seeds walked down to index 0."""
    tag_length, *delays = map(int, numbers) if version == 2 else (LONGEST_TAG[1], *map(int, numbers))
    seeds = seeds_in(files, secret, len(delays))
    times = Times(int(start), int(interval), int(last))
    made = senders.stream_of(version, int(stream, 16), times, tag_length, delays, seeds)
    return Came(0, counted("chains", len(delays)), {out: setup_text(made.setup)})


COMMANDS = {
    **{name: lambda files, *words, play=play: plays(play, files, *words)
       for name, play in (("replay", replay), ("trace", trace), ("early", early), ("roll", roll))},
    "audit": audit,
    "send": send,
    "weave": weave,
    "chain": lambda files, *words: make_setup(1, files, *words),
    "chain2": lambda files, *words: make_setup(2, files, *words),
}


def performed(words, files):
    """What words come to over files."""
    try:
        came = COMMANDS[words[0]](files, *words[1:])
    except Stop as stop:
        came = Came(*stop.args, {})
    return came._replace(printed=came.printed.encode())
