"""What a sender makes of messages and disclosures (DEFINITIONS.md, "Log of a sender", "Made").

A log is the list of the calls that were accepted, each a record of a script. An answer to a call is a frame, None where a
disclosure has no key to tell, or the kind with which it is refused.
"""
import collections

from .clock import interval_of
from .files import SCRIPT, Arrives, Sends, Takes, outline_of
from .frames import DataFrame, KeyRow, KeysFrame, TagRow, frame_text
from .keys import tag_of, walk
from .setups import ChainRow, Setup

# A setup, and a seed for each of its chains.
Stream = collections.namedtuple("Stream", "setup seeds")


def stream_of(version, number, times, tag_length, delays, seeds):
    """The stream of these seeds whose commitments are the keys of index 0."""
    rows = tuple(ChainRow(delay, 0, walk(seed, times.last)) for delay, seed in zip(delays, seeds))
    return Stream(Setup(version, number, times, tag_length, rows), tuple(seeds))


def interval_at(times, reading):
    """The interval of a reading, and 0 before the start."""
    return interval_of(times, reading) or 0


def latest_of(times, log):
    """The interval of the last accepted call, and 0 where there is none."""
    return interval_at(times, log[-1].reading) if log else 0


def messages_of(times, interval, log):
    """How many messages of the interval were accepted."""
    return sum(isinstance(call, Sends) and interval_at(times, call.reading) == interval for call in log)


def key_of(stream, chain, index):
    """The key of that index of the chain whose key of the last interval is the seed."""
    return walk(stream.seeds[chain], stream.setup.times.last - index)


def key_due(stream, chain, interval):
    """The key of a chain that is told in the interval, where there is one."""
    index = interval - stream.setup.rows[chain].delay
    return key_of(stream, chain, index) if index > 0 else None


def message_frame(stream, interval, number, payload):
    """The frame of a message: a row for each chain."""
    setup = stream.setup
    rows = [TagRow(tag_of(setup.tag_length, key_of(stream, chain, interval), setup.stream, chain, interval, number, payload),
                   key_due(stream, chain, interval)) for chain in range(len(setup.rows))]
    return DataFrame(setup.version, setup.stream, interval, number, payload, setup.tag_length, tuple(rows))


def name_of(times, log, reading):
    """The name of a message after a log, or the kind with which it is refused."""
    interval = interval_at(times, reading)
    number = messages_of(times, interval, log)
    if interval == 0:
        return "Early"
    if interval > times.last:
        return "Over"
    if interval < latest_of(times, log):
        return "Backward"
    return (interval, number) if number < 65_536 else "IntervalFull"


def made_message(stream, log, reading, payload):
    """The answer to a message."""
    name = name_of(stream.setup.times, log, reading)
    return name if isinstance(name, str) else message_frame(stream, *name, payload)


def due_rows(stream, interval):
    """A row of each chain that has a key to tell in the interval, or that has told its last one."""
    setup = stream.setup
    told = [(chain, min(interval - row.delay, setup.times.last)) for chain, row in enumerate(setup.rows) if row.delay < interval]
    return tuple(KeyRow(chain, index, key_of(stream, chain, index)) for chain, index in told)


def disclosed_of(setup, log, reading):
    """The interval of a disclosure after a log, None where nothing is due, or the kind with which it is refused."""
    interval = interval_at(setup.times, reading)
    if interval < latest_of(setup.times, log):
        return "Backward"
    return interval if any(row.delay < interval for row in setup.rows) else None


def made_disclosure(stream, log, reading):
    """The answer to a disclosure."""
    interval = disclosed_of(stream.setup, log, reading)
    if not isinstance(interval, int):
        return interval
    return KeysFrame(stream.setup.version, stream.setup.stream, due_rows(stream, interval))


def answer_to(stream, log, record):
    """What a record of a script comes to after the calls that were accepted."""
    return made_message(stream, log, *record) if isinstance(record, Sends) else made_disclosure(stream, log, *record)


def sending(stream, text):
    """What a sender makes of a script: the records of the capture, and the first place that is refused with its kind, or None."""
    records, fault = outline_of(SCRIPT, text)
    log, sent = [], []
    for place, record in records:
        answer = answer_to(stream, log, record)
        if isinstance(answer, str):
            return sent, (place, answer)
        if answer is not None:
            log.append(record)
            sent += [Arrives(record.reading, frame_text(answer)), Takes()]
    return sent, fault
